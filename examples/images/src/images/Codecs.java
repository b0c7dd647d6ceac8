package images;

import nestedvm.FunctionName;
import nestedvm.In;

/** The functions of {@code images.c}. Each gives 0, or -1 where it failed. */
interface Codecs {
    @FunctionName("read_jpeg")
    int readJpeg(@In byte[] bytes, int count, Picture made);

    @FunctionName("write_jpeg")
    int writeJpeg(Picture picture, int quality, MadeFile made);

    @FunctionName("read_png")
    int readPng(@In byte[] bytes, int count, Picture made);

    @FunctionName("write_png")
    int writePng(Picture picture, MadeFile made);

    String failure();
}
