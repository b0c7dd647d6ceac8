package nestedvm;

/**
 * Loads the classes of a program from their files, whatever the class path has, and the host as the class that it is here. Of others there are only
 * {@code Object} and {@code String}.
 */
final class ProgramClasses extends ClassLoader {
    private final ClassSource source;
    private final Confinement confinement;

    ProgramClasses(ClassSource source, String main) {
        super(null);
        this.source = source;
        this.confinement = new Confinement(main);
    }

    @Override
    protected Class<?> loadClass(String name, boolean resolve) throws ClassNotFoundException {
        if (confinement.isOwn(name) || name.equals(Object.class.getName()) || name.equals(String.class.getName())) {
            return super.loadClass(name, resolve);
        }
        if (name.equals(Host.class.getName())) {
            return Host.class;
        }
        throw new ClassNotFoundException(name);
    }

    @Override
    protected Class<?> findClass(String name) throws ClassNotFoundException {
        byte[] file = source.find(name);
        if (file == null) {
            throw new ClassNotFoundException(name);
        }
        confinement.check(name, file);
        return defineClass(name, file, 0, file.length);
    }
}
