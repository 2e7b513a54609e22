/* The texts of the help. */
#include "help.h"
#include "output.h"

#ifndef COLUMNS_VERSION
#define COLUMNS_VERSION "without a version"
#endif

struct page {
    const char *verb;
    const char *text;
};

static const struct page pages[] = {
    {"",
     "usage: columns check [-H] [-j N] [--as-one] FILE...        whether each is good\n"
     "       columns show [-H] [-j N] [--plot] FILE...           a line for each block\n"
     "       columns row [-H] [-j N] [--as-one] P FILE...        the value of row P\n"
     "       columns rows [-H] [-t] [-j N] [--as-one] [A [B]] FILE...\n"
     "                                                           the values of rows A to B\n"
     "       columns find [-H] [-q] [-j N] [--as-one] LOW HIGH FILE...\n"
     "       columns find [-H] [-q] LOW HIGH FILE --with FILE... the rows from LOW to HIGH\n"
     "       columns write [-f] [--empty] [--rows N] FILE        a file of numbers\n"
     "       columns write [-f] [--empty] [--rows N] --split PREFIX\n"
     "       columns rewrite [-f] FILE NEW                       the same rows, by our writer\n"
     "       columns renumber [-f] FILE NEW                      other numbers, by pairs OLD NEW\n"
     "       columns renumber -n FILE                            what that would change\n"
     "       columns canonical [-H] [-j N] FILE...               whether our writer gives the same\n"
     "       columns changes LEFT RIGHT                          the rows at which two differ\n"
     "       columns help [VERB], columns VERB -h, columns --version\n"
     "\n"
     "A column file has blocks of 1024 whole numbers from 0 to 18446744073709551615, at\n"
     "most 256 blocks. Rows are counted from 0, and both bounds belong to what is asked.\n"
     "\n"
     "    seq 1000 3047 | columns write a.col\n"
     "    columns show a.col\n"
     "    columns row 1500 a.col                 prints '2500, in 1 words'\n"
     "    columns rows 0 9 a.col | tac           the first ten values, backwards\n"
     "    columns find 1003 1004 a.col           rows 3 and 4, opened 1 of 2 blocks\n"
     "    columns canonical a.col\n"
     "    columns rewrite a.col b.col\n"
     "    seq 5 2052 | columns write -f b.col\n"
     "    columns changes a.col b.col            all rows differ, so the status is 1\n"
     "    columns check -j 8 *.col\n"
     "\n"
     "A FILE is a plain file, or '-', a pipe or a device, which is read whole. With several\n"
     "files each line begins with the file's name, and with -H also where there is one. With\n"
     "-j N so many files are worked on at once; the lines come in the order of the names.\n"
     "With --as-one the rows are counted on from file to file, as where one column was split.\n"
     "A word with a dash in front is an option, up to '--'; a file of such a name is said\n"
     "with ./ before it. A row or bound in front of the files is a number, and so a file\n"
     "whose name is a number is said with ./ too.\n"
     "\n"
     "The result goes to standard output in whole lines, and complaints go to standard error.\n"
     "A refusal is 'FILE: refused X Y: ' and a sentence: X is the number of the reason, which\n"
     "columns(1) lists, and Y the place.\n"
     "\n"
     "Exit status: 0 done; 1 nothing was found, or there is a difference (find, canonical,\n"
     "changes); 2 something was refused or failed. Of several files it is 2 where one is\n"
     "refused; else 0 where find found a row in one, and 1 where canonical found a difference.\n"},
    {"check",
     "usage: columns check [-H] [-j N] [--as-one] FILE...\n"
     "\n"
     "Says of each good column file 'ok, N blocks, M rows, edition E'. A file that is not as\n"
     "laid out is refused, on standard error: one that is cut or has bytes too many, a bad\n"
     "entry, a smallest or largest value that is not the block's. There is no checksum: a\n"
     "byte that was changed within a body and leaves its smallest and largest value as they\n"
     "were is not found; two copies are compared by 'columns changes'.\n"
     "\n"
     "  -H        each line begins with the file's name, also where there is one file\n"
     "  -j N      works on N files at once\n"
     "  --as-one  counts the rows on from file to file, and says what all come to\n"
     "\n"
     "    columns check -j 8 catalogue/*.col\n"},
    {"show",
     "usage: columns show [-H] [-j N] [--plot] FILE...\n"
     "\n"
     "Prints a line for each block: its number, kind, width in bits, reference, smallest and\n"
     "largest value, and bytes; and then what the file comes to.\n"
     "\n"
     "  --plot    draws the range of each block within that of the column, so that one sees\n"
     "            which blocks a search would open\n"
     "  -H        each line begins with the file's name, also where there is one file\n"
     "  -j N      works on N files at once\n"},
    {"row",
     "usage: columns row [-H] [-j N] [--as-one] P FILE...\n"
     "\n"
     "Prints 'VALUE, in N words' for row P of each file: N counts the packed words that the\n"
     "value's bits stand in. In a block of differences or runs it is 'VALUE, no count'. The\n"
     "whole file is read and checked first.\n"
     "\n"
     "  -H        each line begins with the file's name, also where there is one file\n"
     "  -j N      works on N files at once\n"
     "  --as-one  counts the rows on from file to file\n"
     "\n"
     "    columns row 1500 object.col path.col length.col time.col\n"},
    {"rows",
     "usage: columns rows [-H] [-t] [-j N] [--as-one] [A [B]] FILE...\n"
     "\n"
     "Prints the values of rows A to B of each file, one a line; without B those from A on,\n"
     "and without A all.\n"
     "\n"
     "  -t        the files side by side: a line for each row, with a tab between the values\n"
     "  -H        each line begins with the file's name, also where there is one file\n"
     "  -j N      works on N files at once\n"
     "  --as-one  counts the rows on from file to file\n"
     "\n"
     "    columns rows -t 0 9 object.col path.col time.col\n"},
    {"find",
     "usage: columns find [-H] [-q] [-j N] [--as-one] LOW HIGH FILE...\n"
     "       columns find [-H] [-q] LOW HIGH FILE --with FILE...\n"
     "\n"
     "Prints a line 'ROW VALUE' for each row whose value lies from LOW to HIGH, and then a\n"
     "line 'found N, opened K of B blocks'. Of a plain file the contents are read, and the\n"
     "bodies of the K blocks alone; so only these are checked.\n"
     "\n"
     "  -q        prints the rows without the last line\n"
     "  --with    prints behind each row the values of the same row in the files behind it,\n"
     "            which have to have as many rows\n"
     "  -H        each line begins with the file's name, also where there is one file\n"
     "  -j N      works on N files at once\n"
     "  --as-one  counts the rows on from file to file\n"
     "\n"
     "    columns find 1700000000 1700003600 time.col --with object.col path.col\n"},
    {"write",
     "usage: columns write [-f] [--empty] [--rows N] FILE\n"
     "       columns write [-f] [--empty] [--rows N] --split PREFIX\n"
     "\n"
     "Writes the numbers on standard input, one a line, to a column file. Only whole blocks\n"
     "of 1024 are taken, and at most 256 of them; no numbers at all are refused.\n"
     "\n"
     "  -f              replaces a file that is there\n"
     "  --empty         takes no numbers, too\n"
     "  --rows N        refuses any other count of numbers\n"
     "  --split PREFIX  takes any number of blocks, and lays them into PREFIX.000.col,\n"
     "                  PREFIX.001.col and so on, 256 blocks to a file\n"
     "\n"
     "All of the input is read before anything is written. The new file is first called\n"
     "'.FILE.columns-new', is synced, and then gets its name in one step, with the mode and\n"
     "owner of the file that it replaces. A run that a signal ends has written nothing; one\n"
     "that is ended by force (kill -9) may leave the temporary name, which the next write to\n"
     "that file removes. A link stays, and the file that it leads to is replaced; other hard\n"
     "links keep the old file, and access lists are not kept.\n"},
    {"rewrite",
     "usage: columns rewrite [-f] FILE NEW\n"
     "\n"
     "Writes the rows of any good column file as our writer does, in edition 2, to the file\n"
     "NEW. How that gets its name, 'columns help write' says.\n"
     "\n"
     "  -f  replaces a file that is there; NEW may be FILE itself\n"},
    {"renumber",
     "usage: columns renumber [-f] FILE NEW\n"
     "       columns renumber -n FILE\n"
     "\n"
     "Writes FILE with other numbers to the file NEW, in edition 2. Standard input has a pair\n"
     "'OLD NEW' a line, in any order: each row that has an old number gets the new one, and\n"
     "all other rows stay. Every row is looked up once, so '1 2' and '2 1' exchange two\n"
     "numbers. It prints 'renumbered K of M rows, U of N pairs have no row'.\n"
     "\n"
     "Two different numbers never become one: a new number that stands in two lines is\n"
     "refused, and so is one that a row has which is not listed as an old number. Only FILE is\n"
     "looked at for that: where a column has several files, `columns find` says first whether\n"
     "another one has the new number.\n"
     "\n"
     "  -n  writes nothing, and prints what `columns changes FILE NEW` would print\n"
     "  -f  replaces a file that is there; NEW may be FILE itself\n"
     "\n"
     "How the new file gets its name, 'columns help write' says. A run that is cut off leaves\n"
     "the old file whole.\n"
     "\n"
     "    printf '1000 7\\n1001 8\\n' | columns renumber -n path.col\n"},
    {"canonical",
     "usage: columns canonical [-H] [-j N] FILE...\n"
     "\n"
     "Says of each good column file whether its bytes are those that our writer gives:\n"
     "'ok, this is what our writer gives', or 'differs X Y: ' and a sentence, where X is 9 for\n"
     "a file of edition 1 and 17 for a block that is not ours, and Y the lowest such block.\n"
     "The status is 1 where a file differs.\n"
     "\n"
     "  -H    each line begins with the file's name, also where there is one file\n"
     "  -j N  works on N files at once\n"},
    {"changes",
     "usage: columns changes LEFT RIGHT\n"
     "\n"
     "Compares two column files row by row, and prints a line 'ROW LEFT RIGHT' for each row\n"
     "whose numbers differ, then 'rows A B' where the row counts differ, and then\n"
     "'differences K'. How the rows are held in the files, and the files' editions, play no\n"
     "part. Of a file that is no good one, or cannot be read, the only line is 'refused left\n"
     "X Y' or 'refused right X Y', and standard error says what that means.\n"
     "\n"
     "Exit status: 0 the files have the same rows; 1 a row or the row count differs; 2 a file\n"
     "is refused.\n"},
};
enum { PAGES = sizeof(pages) / sizeof(pages[0]) };

static const char *page_of(const char *verb)
{
    for (size_t i = 0; i < PAGES; i++)
        if (strcmp(pages[i].verb, verb) == 0)
            return pages[i].text;
    return NULL;
}

bool help_is_there(const char *verb)
{
    return page_of(verb) != NULL;
}

static void print(const char *text)
{
    output_lines(text, strlen(text));
    output_end();
}

void help_of(const char *verb)
{
    const char *text = page_of(verb);
    print(text == NULL ? pages[0].text : text);
}

void help_is_missing(void)
{
    struct bytes text;
    bytes_begin(&text);
    bytes_text(&text, pages[0].text);
    complain(&text);
    bytes_free(&text);
}

void help_version(void)
{
    print("columns " COLUMNS_VERSION "\n");
}
