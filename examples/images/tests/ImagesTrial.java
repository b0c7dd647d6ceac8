import images.Images;
import java.awt.BasicStroke;
import java.awt.Color;
import java.awt.GradientPaint;
import java.awt.Graphics2D;
import java.awt.RenderingHints;
import java.awt.image.BufferedImage;
import java.awt.image.DataBufferByte;
import java.io.ByteArrayInputStream;
import java.io.ByteArrayOutputStream;
import java.io.File;
import java.io.IOException;
import java.lang.management.ManagementFactory;
import java.nio.charset.StandardCharsets;
import java.nio.file.Files;
import java.nio.file.Path;
import java.nio.file.Paths;
import java.util.Arrays;
import java.util.Locale;
import java.util.Random;
import javax.imageio.IIOImage;
import javax.imageio.ImageIO;
import javax.imageio.ImageWriteParam;
import javax.imageio.ImageWriter;
import javax.imageio.stream.ImageOutputStream;

/**
 * Holds the guest to ImageIO: `ImagesTrial FOLDER FILE..` reads the files, and pictures that it draws, with both, writes pictures with each and reads them with the
 * other, and leaves them in the folder with a page that shows them.
 */
public final class ImagesTrial {
    private static final int TURNS = 20;

    private final Images images = new Images();
    private final Path folder;
    private final StringBuilder page = new StringBuilder();

    private ImagesTrial(Path folder) {
        this.folder = folder;
    }

    public static void main(String[] words) throws IOException {
        ImageIO.setUseCache(false);
        ImagesTrial trial = new ImagesTrial(Files.createDirectories(Paths.get(words[0])));
        for (String file : Arrays.copyOfRange(words, 1, words.length)) {
            trial.file(Paths.get(file));
        }
        trial.drawn("grey", BufferedImage.TYPE_BYTE_GRAY);
        trial.drawn("colours", BufferedImage.TYPE_3BYTE_BGR);
        trial.drawn("alpha", BufferedImage.TYPE_4BYTE_ABGR);
        trial.wrong();
        trial.large();
        trial.times();
        trial.writePage();
        trial.images.close();
    }

    private static void check(boolean holds, String what) {
        if (!holds) {
            throw new IllegalStateException(what);
        }
    }

    /** How many points differ, and by how much at most in one channel. */
    private static int[] difference(BufferedImage first, BufferedImage second) {
        check(first.getWidth() == second.getWidth() && first.getHeight() == second.getHeight(), "the sizes differ");
        int count = 0;
        int most = 0;
        for (int y = 0; y < first.getHeight(); y++) {
            for (int x = 0; x < first.getWidth(); x++) {
                int a = first.getRGB(x, y);
                int b = second.getRGB(x, y);
                count += a == b ? 0 : 1;
                for (int shift = 0; shift < 32; shift += 8) {
                    most = Math.max(most, Math.abs((a >>> shift & 255) - (b >>> shift & 255)));
                }
            }
        }
        return new int[] {count, most};
    }

    private static BufferedImage byImageIo(byte[] file) throws IOException {
        return ImageIO.read(new ByteArrayInputStream(file));
    }

    private void file(Path path) throws IOException {
        byte[] file = Files.readAllBytes(path);
        compare(path.getFileName().toString(), file);
    }

    /** Both read a file, and have to see the same points. */
    private void compare(String name, byte[] file) throws IOException {
        BufferedImage image = images.read(file);
        int[] differs = difference(image, byImageIo(file));
        System.out.printf("  %s, %d by %d: %d points differ, by %d at most%n", name, image.getWidth(), image.getHeight(), differs[0], differs[1]);
        check(differs[0] == 0, name + " is read in another way");
        show(name, file, image);
    }

    private void drawn(String name, int type) throws IOException {
        BufferedImage image = drawing(type);
        byte[] png = images.writePng(image);
        check(difference(byImageIo(png), image)[0] == 0, name + " as PNG is another picture to ImageIO");
        compare(name + ".png", png);
        compare(name + "-by-imageio.png", pngByImageIo(image));
        if (type != BufferedImage.TYPE_4BYTE_ABGR) {
            compare(name + ".jpg", images.writeJpeg(image, 90));
            compare(name + "-by-imageio.jpg", jpegByImageIo(image, false));
            compare(name + "-progressive.jpg", jpegByImageIo(image, true));
        }
    }

    private static BufferedImage drawing(int type) {
        BufferedImage image = new BufferedImage(241, 163, type);
        Graphics2D pen = image.createGraphics();
        pen.setRenderingHint(RenderingHints.KEY_ANTIALIASING, RenderingHints.VALUE_ANTIALIAS_ON);
        pen.setPaint(new GradientPaint(0, 0, new Color(20, 60, 160), 241, 163, new Color(250, 200, 40, 120)));
        pen.fillRect(0, 0, 241, 163);
        pen.setPaint(new Color(200, 30, 60, 160));
        pen.fillOval(30, 20, 120, 90);
        pen.setPaint(Color.WHITE);
        pen.setStroke(new BasicStroke(5));
        pen.drawArc(60, 70, 130, 80, 30, 250);
        pen.drawLine(10, 150, 230, 15);
        pen.dispose();
        return image;
    }

    private static byte[] pngByImageIo(BufferedImage image) throws IOException {
        ByteArrayOutputStream bytes = new ByteArrayOutputStream();
        ImageIO.write(image, "png", bytes);
        return bytes.toByteArray();
    }

    private static byte[] jpegByImageIo(BufferedImage image, boolean isProgressive) throws IOException {
        ByteArrayOutputStream bytes = new ByteArrayOutputStream();
        ImageWriter writer = ImageIO.getImageWritersByFormatName("jpeg").next();
        ImageWriteParam words = writer.getDefaultWriteParam();
        words.setProgressiveMode(isProgressive ? ImageWriteParam.MODE_DEFAULT : ImageWriteParam.MODE_DISABLED);
        try (ImageOutputStream stream = ImageIO.createImageOutputStream(bytes)) {
            writer.setOutput(stream);
            writer.write(null, new IIOImage(image, null, null), words);
        }
        writer.dispose();
        return bytes.toByteArray();
    }

    /** Files that are cut or changed are refused or read, and the guest stays good. */
    private void wrong() throws IOException {
        BufferedImage image = drawing(BufferedImage.TYPE_3BYTE_BGR);
        Random random = new Random(1);
        int refused = 0;
        byte[][] files = {images.writePng(image), images.writeJpeg(image, 90)};
        for (int i = 0; i < 200; i++) {
            byte[] file = files[i % 2].clone();
            if (i % 4 < 2) {
                file = Arrays.copyOf(file, random.nextInt(file.length));
            } else {
                file[random.nextInt(file.length)] ^= 1 << random.nextInt(8);
            }
            try {
                images.read(file);
            } catch (IOException refusal) {
                refused++;
            }
        }
        check(difference(images.read(files[0]), image)[0] == 0, "the guest is not good afterwards");
        System.out.println("  200 files that were cut or changed: " + refused + " refused, and the guest is good");
    }

    /** Pictures that need more memory or time than there is are refused, each time, and with more memory they are read. */
    private void large() throws IOException {
        BufferedImage photograph = new BufferedImage(4000, 3000, BufferedImage.TYPE_3BYTE_BGR);
        photograph.createGraphics().drawImage(drawing(BufferedImage.TYPE_3BYTE_BGR), 0, 0, 4000, 3000, null);
        byte[] file = jpegByImageIo(photograph, false);
        for (int i = 0; i < 3; i++) {
            refused("the picture is too large", () -> images.read(file));
            refused("Codecs has no room for 36000000 bytes", () -> images.writePng(photograph));
        }
        byte[] scans = withMoreScans(jpegByImageIo(drawing(BufferedImage.TYPE_3BYTE_BGR), true), 200);
        refused("the picture has too many scans", () -> images.read(scans));
        try (Images more = new Images(64)) {
            check(difference(more.read(file), byImageIo(file))[0] == 0, "the photograph is read in another way");
        }
        try (Images less = new Images(4)) {
            for (int i = 0; i < 10; i++) {
                refused("Output file write error --- out of disk space?", () -> less.writeJpeg(noise(1000), 100));
            }
        }
        System.out.println("  too large for the memory, or with too many scans: refused; a photograph of 12 million points in 64 MiB: read");
    }

    /** Something of the guest that may be refused. */
    private interface Work {
        Object run() throws IOException;
    }

    private static void refused(String message, Work work) {
        try {
            work.run();
            check(false, "this is not refused: " + message);
        } catch (IOException refusal) {
            check(refusal.getMessage().equals(message), "refused otherwise: " + refusal);
        }
    }

    private static BufferedImage noise(int width) {
        BufferedImage image = new BufferedImage(width, width, BufferedImage.TYPE_3BYTE_BGR);
        new Random(1).nextBytes(((DataBufferByte) image.getRaster().getDataBuffer()).getData());
        return image;
    }

    /** A progressive JPEG whose last scan stands in it so many times more. */
    private static byte[] withMoreScans(byte[] file, int count) throws IOException {
        int start = file.length - 2;
        while ((file[start] & 255) != 0xff || (file[start + 1] & 255) != 0xda) {
            start--;
        }
        ByteArrayOutputStream made = new ByteArrayOutputStream();
        made.write(file, 0, start);
        for (int i = 0; i <= count; i++) {
            made.write(file, start, file.length - 2 - start);
        }
        made.write(file, file.length - 2, 2);
        return made.toByteArray();
    }

    private void times() throws IOException {
        byte[] jpeg = images.writeJpeg(drawing(BufferedImage.TYPE_3BYTE_BGR), 90);
        byte[] png = images.writePng(drawing(BufferedImage.TYPE_3BYTE_BGR));
        System.out.printf(Locale.ROOT, "  a picture read, warm: JPEG %.1f ms, by ImageIO %.1f; PNG %.1f ms, by ImageIO %.1f%n",
            time(() -> images.read(jpeg)), time(() -> byImageIo(jpeg)), time(() -> images.read(png)), time(() -> byImageIo(png)));
    }

    /** Something that reads a picture. */
    private interface Reading {
        BufferedImage read() throws IOException;
    }

    /** The processor's time of this thread, without that of the compilers, in nanoseconds. */
    private static long processorTime() {
        return ManagementFactory.getThreadMXBean().getCurrentThreadCpuTime();
    }

    private static double time(Reading reading) throws IOException {
        long least = Long.MAX_VALUE;
        for (int i = 0; i < TURNS; i++) {
            long start = processorTime();
            reading.read();
            least = Math.min(least, processorTime() - start);
        }
        return least / 1e6;
    }

    private void show(String name, byte[] file, BufferedImage image) throws IOException {
        Files.write(folder.resolve(name), file);
        ImageIO.write(image, "png", new File(folder.toFile(), name + ".read.png"));
        page.append(String.format("<tr><td>%s<td><img src=\"%s\" alt=\"\"><td><img src=\"%s.read.png\" alt=\"\">%n", name, name, name));
    }

    private void writePage() throws IOException {
        String text = "<!DOCTYPE html>\n<html lang=\"en\">\n<meta charset=\"utf-8\">\n<title>Pictures</title>\n"
            + "<style>body { font: 16px sans-serif } td { padding: .5em } img { max-width: 30em; background: #ddd }</style>\n"
            + "<h1>Pictures by libjpeg and libpng in a JVM</h1>\n<table>\n<tr><th>File<th>by the browser<th>by the guest\n" + page + "</table>\n</html>\n";
        Files.write(folder.resolve("index.html"), text.getBytes(StandardCharsets.UTF_8));
    }
}
