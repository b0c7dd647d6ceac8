package nestedvm;

import java.lang.annotation.Documented;
import java.lang.annotation.ElementType;
import java.lang.annotation.Retention;
import java.lang.annotation.RetentionPolicy;
import java.lang.annotation.Target;

/** How the texts of an interface, a method or a parameter are encoded, where it is not in UTF-8. What stands nearest counts. */
@Documented
@Retention(RetentionPolicy.RUNTIME)
@Target({ElementType.TYPE, ElementType.METHOD, ElementType.PARAMETER})
public @interface Encoding {
    /**
     * The name of the character set, as {@code ISO-8859-1}: one in which no character but 0 has a byte 0.
     *
     * @return the name
     */
    String value();
}
