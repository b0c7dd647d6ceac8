package images;

import java.awt.image.BufferedImage;
import java.awt.image.DataBufferByte;
import java.io.IOException;
import nestedvm.CallFailed;
import nestedvm.Library;
import nestedvm.Memory;
import nestedvm.Pointer;
import nestedvm.Program;

/**
 * Pictures by libjpeg and libpng, which run in this process as a guest. A picture that is wrong harms nothing but the guest, whose memory is its own and
 * bounded.
 *
 * <p>Several threads may use one; its methods take turns.
 */
public final class Images implements AutoCloseable {
    private static final int[] TYPES = {0, BufferedImage.TYPE_BYTE_GRAY, 0, BufferedImage.TYPE_3BYTE_BGR, BufferedImage.TYPE_4BYTE_ABGR};

    private static final Program PROGRAM = Program.of(Images.class.getClassLoader(), "codecs/Codecs");
    private static final int PAGES_OF_A_MEGABYTE = 256;

    private final Library library;
    private final Codecs codecs;

    /** A guest with a heap of 32 MiB, which is enough for pictures of some 5 million points. */
    public Images() {
        this(32);
    }

    /**
     * A guest with another heap. The samples of a picture take a byte each, those of a progressive JPEG three, and its file is there as well.
     *
     * @param megabytes the heap in MiB, 1 to 128
     */
    public Images(int megabytes) {
        library = PROGRAM.call().heap(megabytes * PAGES_OF_A_MEGABYTE).library();
        codecs = library.as(Codecs.class);
    }

    /**
     * Reads a picture.
     *
     * @param file a file of JPEG or PNG
     * @return the picture, of bytes: grey, BGR, or with alpha ABGR
     * @throws IOException if the file is neither, is wrong, or is too large for the guest's memory
     */
    public synchronized BufferedImage read(byte[] file) throws IOException {
        boolean isJpeg = file.length > 2 && (file[0] & 255) == 0xff && (file[1] & 255) == 0xd8;
        try (Picture made = new Picture(library)) {
            try {
                check(isJpeg ? codecs.readJpeg(file, file.length, made) : codecs.readPng(file, file.length, made));
                return imageOf(made);
            } finally {
                release(made.samples.get());
            }
        } catch (CallFailed | IllegalStateException failure) {
            throw new IOException(failure.getMessage(), failure);
        }
    }

    private static BufferedImage imageOf(Picture picture) {
        int channels = picture.channels.get();
        BufferedImage image = new BufferedImage(picture.width.get(), picture.height.get(), TYPES[channels]);
        byte[] to = samplesOf(image);
        System.arraycopy(turned(picture.samples.get().read(0, to.length), channels), 0, to, 0, to.length);
        return image;
    }

    /**
     * Writes a picture as PNG, without loss.
     *
     * @param image the picture
     * @return the file
     * @throws IOException if it is too large for the guest's memory
     */
    public synchronized byte[] writePng(BufferedImage image) throws IOException {
        return write(image, codecs::writePng);
    }

    /**
     * Writes a picture as JPEG. Its alpha is left out.
     *
     * @param image the picture
     * @param quality 1 to 100
     * @return the file
     * @throws IOException if it is too large for the guest's memory
     */
    public synchronized byte[] writeJpeg(BufferedImage image, int quality) throws IOException {
        BufferedImage opaque = image.getColorModel().hasAlpha() ? copyOf(image, BufferedImage.TYPE_3BYTE_BGR) : image;
        return write(opaque, (picture, made) -> codecs.writeJpeg(picture, quality, made));
    }

    /** A function of the guest that makes a file of a picture, and gives 0 where it has. */
    private interface Encoder {
        int write(Picture picture, MadeFile made);
    }

    private byte[] write(BufferedImage image, Encoder encoder) throws IOException {
        int channels = image.getColorModel().hasAlpha() ? 4 : image.getType() == BufferedImage.TYPE_BYTE_GRAY ? 1 : 3;
        byte[] samples = turned(samplesOf(copyOf(image, TYPES[channels])), channels);
        try (Memory memory = library.allocateMemory(samples.length); Picture picture = new Picture(library); MadeFile made = new MadeFile(library)) {
            memory.write(0, samples);
            picture.width.set(image.getWidth());
            picture.height.set(image.getHeight());
            picture.channels.set(channels);
            picture.samples.set(memory);
            try {
                check(encoder.write(picture, made));
                return made.bytes.get().read(0, made.count.get());
            } finally {
                release(made.bytes.get());
            }
        } catch (CallFailed | IllegalStateException failure) {
            throw new IOException(failure.getMessage(), failure);
        }
    }

    /** The array that an image of bytes has its samples in. */
    private static byte[] samplesOf(BufferedImage image) {
        return ((DataBufferByte) image.getRaster().getDataBuffer()).getData();
    }

    private static BufferedImage copyOf(BufferedImage image, int type) {
        BufferedImage copy = new BufferedImage(image.getWidth(), image.getHeight(), type);
        if (image.getType() == type) {
            image.copyData(copy.getRaster());
        } else {
            for (int y = 0; y < image.getHeight(); y++) {
                copy.setRGB(0, y, image.getWidth(), 1, image.getRGB(0, y, image.getWidth(), 1, null, 0, image.getWidth()), 0, image.getWidth());
            }
        }
        return copy;
    }

    /** RGB to BGR and RGBA to ABGR, or back: the bytes of each point the other way round, in place. */
    private static byte[] turned(byte[] samples, int channels) {
        for (int start = 0; start + channels <= samples.length; start += channels) {
            for (int i = start, j = start + channels - 1; i < j; i++, j--) {
                byte first = samples[i];
                samples[i] = samples[j];
                samples[j] = first;
            }
        }
        return samples;
    }

    private void check(int result) throws IOException {
        if (result != 0) {
            throw new IOException(codecs.failure());
        }
    }

    private void release(Pointer place) {
        if (place != null) {
            library.release(place.address());
        }
    }

    /** Ends the guest. */
    @Override
    public void close() {
        library.close();
    }
}
