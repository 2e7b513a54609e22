/* Written by tools/tables from bindings/columns/result.c. Do not change it here. The sentences of the program columns; where
 * there are two parts, the place stands between them. */
#ifndef FASCJOLDI_SENTENCES_H
#define FASCJOLDI_SENTENCES_H

static const struct sentence {
    size_t number;
    const char *before, *behind;
} sentences[] = {
    {8,
        "the file is cut short, it ends before its contents or its bodies do; fetch it again",
        NULL},
    {9,
        "this is no column file of edition 1 or 2 with at most 256 blocks; look whether it is the right file",
        NULL},
    {10,
        "entry ",
        " of the contents is not as laid out: its kind, width, length, reference or range cannot be; fetch "
        "the file again"},
    {11,
        "there are bytes behind the last body, as where two files were joined; fetch it again",
        NULL},
    {13,
        "block ",
        " has a run index at or beyond the number of its run values, so its rows cannot be told; fetch the "
        "file again"},
    {15,
        "block ",
        " has another smallest or largest value than the contents say: one of the two is damaged; fetch the "
        "file again"},
    {17,
        "block ",
        " is not as our writer would write it; `columns rewrite` makes a file that is"},
};

#endif
