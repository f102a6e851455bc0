/* Pictures of GIF (giflib). */
#include "unit.h"
#include "gif_lib.h"
static int at, end;
static int more(GifFileType *g, GifByteType *to, int n) {
    if (n > end - at) n = end - at;
    memcpy(to, in + at, n);
    at += n;
    return n;
}
int main(void) {
    int why = 0;
    end = read_input();
    GifFileType *g = DGifOpen(NULL, more, &why);
    if (!g) {
        put_word(why);
        return 1;
    }
    int came = DGifSlurp(g);
    put_word(g->SWidth << 16 | g->SHeight);
    for (int i = 0; i < g->ImageCount; i++) {
        SavedImage *s = &g->SavedImages[i];
        put_word(s->ImageDesc.Left << 16 | s->ImageDesc.Top);
        put_word(s->ImageDesc.Width << 16 | s->ImageDesc.Height);
        if (came == GIF_OK) put_bytes(s->RasterBits, s->ImageDesc.Width * s->ImageDesc.Height);
        for (int k = 0; k < s->ExtensionBlockCount; k++)
            put_bytes(s->ExtensionBlocks[k].Bytes, s->ExtensionBlocks[k].ByteCount);
    }
    if (came != GIF_OK) put_text(GifErrorString(g->Error));
    DGifCloseFile(g, &why);
    return came != GIF_OK;
}
