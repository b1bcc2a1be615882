/* Prints messages as liblo encodes them, one in hexadecimal on a line.
   Debian: apt-get install liblo-dev; cc liblo.c -llo -o liblo && ./liblo */
#include <lo/lo.h>
#include <stdio.h>
#include <stdlib.h>

static void show(const char *path, lo_message m) {
    size_t n = 0;
    unsigned char *bytes = lo_message_serialise(m, path, NULL, &n);
    for (size_t i = 0; i < n; i++) printf("%02x", bytes[i]);
    printf("\n");
    free(bytes);
    lo_message_free(m);
}

int main(void) {
    unsigned char one[1] = {7};
    unsigned char four[4] = {0xde, 0xad, 0xbe, 0xef};
    unsigned char five[5] = {0x00, 0x01, 0x7f, 0x80, 0xff};
    lo_message m;
    m = lo_message_new();
    show("/go", m);
    m = lo_message_new();
    lo_message_add_int32(m, 1);
    show("/hall/read", m);
    m = lo_message_new();
    lo_message_add_int32(m, 2147483647);
    lo_message_add_int32(m, -2147483647 - 1);
    lo_message_add_int32(m, -1);
    show("/numbers", m);
    m = lo_message_new();
    lo_message_add_string(m, "");
    lo_message_add_string(m, "abc");
    lo_message_add_string(m, "abcd");
    show("/text", m);
    m = lo_message_new();
    lo_message_add_blob(m, lo_blob_new(1, one));
    lo_message_add_blob(m, lo_blob_new(4, four));
    lo_message_add_blob(m, lo_blob_new(5, five));
    show("/blob", m);
    m = lo_message_new();
    lo_message_add_string(m, "say \"go\"\\ now\n");
    lo_message_add_int32(m, 16);
    lo_message_add_string(m, "Z\xc3\xbcrich");
    show("/desk/1/name", m);
    m = lo_message_new();
    lo_message_add_float(m, 0.5f);
    show("/fader", m);
    return 0;
}
