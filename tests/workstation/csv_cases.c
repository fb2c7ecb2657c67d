/* Cases by hand of the CSV form, from RFC 4180 and csv.h. */
#include "csv_test.h"
#include <string.h>

#define HEADER "number,kind,rate,injector 1,share 1,injector 2,share 2,injector 3,share 3,injector 4,share 4,note\n"
#define AT_NOTE HEADER "14,injector,600,,,,,,,,,"
#define INJECTOR_14 {.number = 14, .kind = 2, .rate = 600}
#define BOM "\xef\xbb\xbf"
#define TEN "0123456789"
#define FIFTY TEN TEN TEN TEN TEN
#define QUOTES8 "\"\"\"\"\"\"\"\""
#define ZEROS26 "00000000000000000000000000"
#define DIGEST32 "00112233445566778899aabbccddeeff"

/* A text and its length, which may have zero bytes in it. */
#define TEXT(literal) (literal), sizeof(literal) - 1

static struct list list;
static char opened[OPENED_MOST];
static struct csv_fault fault;

/* Reads a text that must be read. */
static void is_read(const char *what, const void *text, size_t len)
{
    int done = read_lent(&list, opened, text, len, &fault);

    check(done, "%s isn't read: line %zu, column %zu, %s", what, fault.line, fault.column, fault.words);
}

/* Reads a text that must be refused at this place, in words of which these are a part. */
static void is_refused(const char *what, const void *text, size_t len, size_t line, size_t column, const char *words)
{
    check(!read_lent(&list, opened, text, len, &fault), "%s is read", what);
    check(fault.line == line && fault.column == column && strstr(fault.words, words),
          "line %zu, column %zu, %s, not line %zu, column %zu, %s: %s", fault.line, fault.column, fault.words, line,
          column, words, what);
}

/* Texts that are read as a list of one record, and it. */
static const struct {
    const char *text;
    size_t len;
    struct well well;
    const char *note;
} wells[] = {
    {TEXT(HEADER "1,producer,500,14,500,15,500,,,,,north\n"),
     {.number = 1, .kind = 1, .links = 2, .rate = 500, .link = {{14, 500}, {15, 500}}}, "north"},
    {TEXT(AT_NOTE "\n"), INJECTOR_14, ""},
    {TEXT(AT_NOTE), INJECTOR_14, ""},
    {TEXT(AT_NOTE "\r\n"), INJECTOR_14, ""},
    {TEXT(BOM AT_NOTE "\n"), INJECTOR_14, ""},
    {TEXT(HEADER "\n\r\n14,injector,600,,,,,,,,,\n\n\r\n\n"), INJECTOR_14, ""},

    /* All cells in quotes, the header's too; letters of either case; spaces around what isn't a note. */
    {TEXT("\"number\",\"kind\",\"rate\",\"injector 1\",\"share 1\",\"injector 2\",\"share 2\",\"injector 3\","
          "\"share 3\",\"injector 4\",\"share 4\",\"note\"\r\n"
          "\"3\",\"producer\",\"4\",\"5\",\"6\",\"\",\"\",\"\",\"\",\"\",\"\",\"\"\r\n"),
     {.number = 3, .kind = 1, .links = 1, .rate = 4, .link = {{5, 6}}}, ""},
    {TEXT("Number, KIND,rate ,Injector 1,SHARE 1,injector 2,share 2,injector 3,share 3,injector 4,share 4,  Note  \n"
          " 3 ,Producer , 4,\" 5 \",6   , ,  ,,,,,n\n"),
     {.number = 3, .kind = 1, .links = 1, .rate = 4, .link = {{5, 6}}}, "n"},
    {TEXT(HEADER "14,INJECTOR,600,,,,,,,,,\n"), INJECTOR_14, ""},
    {TEXT(HEADER "3,1,0,,,,,,,,,\n"), {.number = 3, .kind = 1}, ""},
    {TEXT(HEADER "00014,002,0600,,,,,,,,,\n"), INJECTOR_14, ""},

    /* Notes: commas, quotes, line ends, spaces, escapes, bytes that are no UTF-8, a BOM that isn't the first. */
    {TEXT(AT_NOTE "\"a,b\"\n"), INJECTOR_14, "a,b"},
    {TEXT(AT_NOTE "\"\"\"a\"\"b\"\"\"\n"), INJECTOR_14, "\"a\"b\""},
    {TEXT(AT_NOTE "\"\"\"\"\n"), INJECTOR_14, "\""},
    {TEXT(AT_NOTE "\"\"\"\""), INJECTOR_14, "\""},
    {TEXT(AT_NOTE "\"a\nb\r\nc\rd\"\r\n"), INJECTOR_14, "a\nb\r\nc\rd"},
    {TEXT(AT_NOTE " a \n"), INJECTOR_14, " a "},
    {TEXT(AT_NOTE "\" a \"\n"), INJECTOR_14, " a "},
    {TEXT(AT_NOTE "\\\\\\x41\\x3D\\xfF\\x0a\n"), INJECTOR_14, "\\A=\xff\n"},
    {TEXT(AT_NOTE "=1\n"), INJECTOR_14, "=1"},
    {TEXT(AT_NOTE "\xc3\xa9\xff\x80\t" BOM "\n"), INJECTOR_14, "\xc3\xa9\xff\x80\t" BOM},
    {TEXT(AT_NOTE "a\\x00\\x00\n"), INJECTOR_14, "a"},
    {TEXT(AT_NOTE "0123456789abcdef\n"), INJECTOR_14, "0123456789abcdef"},
    {TEXT(AT_NOTE "\"" QUOTES8 QUOTES8 QUOTES8 QUOTES8 "\"\n"), INJECTOR_14, QUOTES8 QUOTES8},

    /* The limits of the numbers. */
    {TEXT(HEADER "65535,255,4294967295,65535,65535,0,0,1,65535,65535,1,\n"),
     {.number = 65535, .kind = 255, .links = 4, .rate = 4294967295,
      .link = {{65535, 65535}, {0, 0}, {1, 65535}, {65535, 1}}}, ""},
    {TEXT(HEADER "0,0,1,,,,,,,,,\n"), {.rate = 1}, ""},

    /* Struck ones, and bytes. */
    {TEXT(HEADER ",struck,,,,,,,,,,\n"), {0}, ""},
    {TEXT(HEADER ",\" Struck \",,,,,,,,,,\n"), {0}, ""},
    {TEXT(HEADER "0,0,0,,,,,,,,,\\x00\n"), {0}, ""},
    {TEXT(HEADER ",bytes,,,,,,,,,,0102030405060708090a0b0c0D0E0f101112131415161718" "616263" ZEROS26 "\n"),
     {.number = 0x102, .kind = 3, .links = 4, .rate = 0x5060708,
      .link = {{0x90a, 0xb0c}, {0xd0e, 0xf10}, {0x1112, 0x1314}, {0x1516, 0x1718}}}, "abc"},
    {TEXT(HEADER ",BYTES,,,,,,,,,,\"" ZEROS26 "0000000000000000000001" ZEROS26 "000000" "\"\n"),
     {.link = {[3] = {0, 1}}}, ""},
};

static void read_wells(void)
{
    for (size_t i = 0; i < COUNT_OF(wells); i++) {
        uint8_t record[RECORD];

        put_well(record, &wells[i].well, wells[i].note);
        is_read(wells[i].text, wells[i].text, wells[i].len);
        check(list.n == 1 && memcmp(list.records, record, RECORD) == 0 && !opened[0], "read as another: %s",
              wells[i].text);
        same_again(&list, "");
    }
}

/* Texts that are refused, with a ^ before the place and a part of the words. */
static const struct {
    const char *text;
    size_t len;
    const char *words;
} faults[] = {
    /* The header. */
    {TEXT("^"), "the line ends after 1 cell, and 12 are wanted"},
    {TEXT(BOM "^"), "the line ends after 1 cell, and 12 are wanted"},
    {TEXT("\xef\xbb^"), "the line ends after 1 cell"},
    {TEXT("^\n" HEADER), "the line ends after 1 cell"},
    {TEXT("number,kind^\n"), "the line ends after 2 cells, and 12 are wanted"},
    {TEXT("number,kind,rate,injector 1,share 1,injector 2,share 2,injector 3,share 3,injector 4,share 4^"),
     "the line ends after 11 cells"},
    {TEXT("number,kind,rate,injector 1,share 1,injector 2,share 2,injector 3,share 3,injector 4,share 4,note^,\n"),
     "the line goes on after 12 cells"},
    {TEXT("^numbers,kind,rate,injector 1,share 1,injector 2,share 2,injector 3,share 3,injector 4,share 4,note\n"),
     "the header's cell 1 is \"number\""},
    {TEXT("number,^kin,rate,injector 1,share 1,injector 2,share 2,injector 3,share 3,injector 4,share 4,note\n"),
     "the header's cell 2 is \"kind\""},
    {TEXT("number,kind,rate,^share 1,injector 1,injector 2,share 2,injector 3,share 3,injector 4,share 4,note\n"),
     "the header's cell 4 is \"injector 1\""},
    {TEXT("number,kind,rate,injector 1,share 1,injector 2,share 2,injector 3,share 3,injector 4,share 4,^ notes\n"),
     "the header's cell 12 is \"note\""},
    {TEXT("^1,producer,500,14,500,15,500,,,,,north\n" HEADER), "the header's cell 1"},
    {TEXT("number,^\"kind,rate"), "the quote that begins here isn't closed"},

    /* The line of the sheet that was opened. */
    {TEXT("opened,^\n" HEADER), "the digest of the sheet"},
    {TEXT("opened,^"), "the digest of the sheet"},
    {TEXT("opened,^abc\n" HEADER), "the digest of the sheet"},
    {TEXT("opened,^ABCD\n" HEADER), "the digest of the sheet"},
    {TEXT("opened,^ab \n" HEADER), "the digest of the sheet"},
    {TEXT("opened,^" DIGEST32 DIGEST32 DIGEST32 DIGEST32 "00\n" HEADER), "the digest of the sheet"},
    {TEXT("opened,ab,^abc\n" HEADER), "the digest of the sheet"},
    {TEXT("opened,ab,,^cd\n" HEADER), "the digest of the sheet"},
    {TEXT("opened,^,\n" HEADER), "the digest of the sheet"},
    {TEXT("opened,ab\n^"), "the line ends after 1 cell, and 12"},
    {TEXT("opened^\n" HEADER), "the line ends after 1 cell, and 12"},
    {TEXT("^Opened,ab,c,d,e,f,g,h,i,j,k,l\n" HEADER), "the header's cell 1"},
    {TEXT("opened,ab\n^opened,ab,c,d,e,f,g,h,i,j,k,l\n" HEADER), "the header's cell 1"},

    /* How many cells. */
    {TEXT(HEADER " ^\n"), "the line ends after 1 cell,"},
    {TEXT(HEADER "14,injector,600^\n"), "the line ends after 3 cells"},
    {TEXT(HEADER "14,injector,600,,,,,,,,^\n"), "the line ends after 11 cells"},
    {TEXT(HEADER "14,injector,600,,,,,,,,^\r\n"), "the line ends after 11 cells"},
    {TEXT(HEADER "14,injector,600,,,,,,,,^"), "the line ends after 11 cells"},
    {TEXT(AT_NOTE "^,\n"), "the line goes on after 12 cells"},
    {TEXT(AT_NOTE "a^,b\n"), "the line goes on after 12 cells"},
    {TEXT(HEADER ",struck^\n"), "the line ends after 2 cells"},

    /* Quotes. */
    {TEXT(AT_NOTE "^\""), "the quote that begins here isn't closed"},
    {TEXT(AT_NOTE "^\"abc\n"), "the quote that begins here isn't closed"},
    {TEXT(AT_NOTE "^\"abc\"\""), "the quote that begins here isn't closed"},
    {TEXT(AT_NOTE "^\"\"\""), "the quote that begins here isn't closed"},
    {TEXT(AT_NOTE "\"abc\"^d\n"), "after a closing quote stands a comma"},
    {TEXT(AT_NOTE "\"abc\"^ \n"), "after a closing quote stands a comma"},
    {TEXT(AT_NOTE "\"abc\"^\r"), "after a closing quote stands a comma"},
    {TEXT(HEADER "14,\"injector\"^;600,,,,,,,,,\n"), "after a closing quote stands a comma"},
    {TEXT(AT_NOTE "a^\"b\n"), "a quote stands in a cell that doesn't begin with one"},
    {TEXT(HEADER "14, ^\"injector\",600,,,,,,,,,\n"), "a quote stands in a cell"},
    {TEXT(AT_NOTE "ab^\0c\n"), "a zero byte"},
    {TEXT(AT_NOTE "\"ab^\0\"\n"), "a zero byte"},
    {TEXT(HEADER "^\0"), "a zero byte"},
    {TEXT(AT_NOTE "^\rab\n"), "a carriage return that doesn't end a line"},
    {TEXT(AT_NOTE "ab^\r"), "a carriage return that doesn't end a line"},
    {TEXT(AT_NOTE "ab^\r\r\n"), "a carriage return that doesn't end a line"},
    {TEXT(HEADER "^\r14,injector,600,,,,,,,,,\n"), "a carriage return that doesn't end a line"},

    /* Cells that are too long, with quotes and without. */
    {TEXT(HEADER "^" FIFTY FIFTY FIFTY TEN "1,injector,600,,,,,,,,,\n"), "the cell has more than 160 bytes"},
    {TEXT(AT_NOTE "^" FIFTY FIFTY FIFTY TEN "1\n"), "the cell has more than 160 bytes"},
    {TEXT(AT_NOTE "^\"" FIFTY FIFTY FIFTY TEN "1\"\n"), "the cell has more than 160 bytes"},
    {TEXT(AT_NOTE "^\"" FIFTY FIFTY FIFTY TEN "\"\"\"\n"), "the cell has more than 160 bytes"},
    {TEXT(AT_NOTE "^" FIFTY FIFTY FIFTY TEN "\n"),
     "note \"012345678901234567890123\"..: a note has at most 16 bytes"},
    {TEXT(AT_NOTE "^\"" FIFTY FIFTY FIFTY "012345678\"\"\"\n"), "a note has at most 16 bytes"},

    /* Numbers. */
    {TEXT(HEADER "^,injector,600,,,,,,,,,\n"), "number \"\": a number from 0 to 65535 is wanted"},
    {TEXT(HEADER "^ ,injector,600,,,,,,,,,\n"), "number \"\": a number from 0 to 65535 is wanted"},
    {TEXT(HEADER "^65536,injector,600,,,,,,,,,\n"), "number \"65536\": a number from 0 to 65535 is wanted"},
    {TEXT(HEADER "^\"65536\",injector,600,,,,,,,,,\n"), "number \"65536\": a number from 0 to 65535 is wanted"},
    {TEXT(HEADER "^ 1 4,injector,600,,,,,,,,,\n"), "number \"1 4\": a number"},
    {TEXT(HEADER "^-1,injector,600,,,,,,,,,\n"), "number \"-1\": a number"},
    {TEXT(HEADER "^+1,injector,600,,,,,,,,,\n"), "number \"+1\": a number"},
    {TEXT(HEADER "^1.0,injector,600,,,,,,,,,\n"), "number \"1.0\": a number"},
    {TEXT(HEADER "^0x1,injector,600,,,,,,,,,\n"), "number \"0x1\": a number"},
    {TEXT(HEADER "^\t1,injector,600,,,,,,,,,\n"), "number \"\\x091\": a number"},
    {TEXT(HEADER "^1\t,injector,600,,,,,,,,,\n"), "number \"1\\x09\": a number"},
    {TEXT(HEADER "^\xc3\xa9,injector,600,,,,,,,,,\n"), "number \"\xc3\xa9\": a number"},
    {TEXT(HEADER "^18446744073709551617,injector,600,,,,,,,,,\n"), "number \"18446744073709551617\": a number"},
    {TEXT(HEADER "^000000000000000000065536,injector,600,,,,,,,,,\n"), "number \"000000000000000000065536\": a number"},
    {TEXT(HEADER "^184467440737095516160000001,injector,600,,,,,,,,,\n"),
     "number \"184467440737095516160000\"..: a number"},
    {TEXT(HEADER "14,injector,^,,,,,,,,,\n"), "rate \"\": a number from 0 to 4294967295 is wanted"},
    {TEXT(HEADER "14,injector,^4294967296,,,,,,,,,\n"), "rate \"4294967296\": a number from 0 to 4294967295 is wanted"},
    {TEXT(HEADER "14,injector,^18446744073709551616,,,,,,,,,\n"), "rate \"18446744073709551616\": a number"},
    {TEXT(HEADER "14,^256,600,,,,,,,,,\n"), "kind \"256\": a number from 0 to 255 is wanted"},
    {TEXT(HEADER "14,^,600,,,,,,,,,\n"), "kind \"\": producer, injector or struck is wanted"},
    {TEXT(HEADER "14,^-1,600,,,,,,,,,\n"), "kind \"-1\": producer, injector or struck is wanted"},
    {TEXT(HEADER "14,^ well ,600,,,,,,,,,\n"), "kind \"well\": producer, injector or struck is wanted"},
    {TEXT(HEADER "14,^producers,600,,,,,,,,,\n"), "kind \"producers\": producer"},
    {TEXT(HEADER "14,^injecto,600,,,,,,,,,\n"), "kind \"injecto\": producer"},

    /* Links: what each needs, and that none is left out. */
    {TEXT(HEADER "1,producer,500,^65536,1,,,,,,,\n"), "injector 1 \"65536\": a number from 0 to 65535 is wanted"},
    {TEXT(HEADER "1,producer,500,1,^65536,,,,,,,\n"), "share 1 \"65536\": a number from 0 to 65535 is wanted"},
    {TEXT(HEADER "1,producer,500,1,^,,,,,,,\n"), "share 1 \"\": a number"},
    {TEXT(HEADER "1,producer,500,^,1,,,,,,,\n"), "injector 1 \"\": a number"},
    {TEXT(HEADER "1,producer,500,1,1,2,^ ,,,,,\n"), "share 2 \"\": a number"},
    {TEXT(HEADER "1,producer,500,1,1,2,2,3,3,4,^65536,\n"), "share 4 \"65536\": a number"},
    {TEXT(HEADER "1,producer,500,1,1,2,2,3,3,^x,1,\n"), "injector 4 \"x\": a number"},
    {TEXT(HEADER "1,producer,500,,,^1,1,,,,,\n"), "injector 2 \"1\": the link before it is empty"},
    {TEXT(HEADER "1,producer,500,,,,^1,,,,,\n"), "share 2 \"1\": the link before it is empty"},
    {TEXT(HEADER "1,producer,500,1,1,,,,,^1,1,\n"), "injector 4 \"1\": the link before it is empty"},
    {TEXT(HEADER "1,producer,500,1,1, , ,^3,3,4,4,\n"), "injector 3 \"3\": the link before it is empty"},

    /* Notes. */
    {TEXT(AT_NOTE "^0123456789abcdefg\n"), "note \"0123456789abcdefg\": a note has at most 16 bytes"},
    {TEXT(AT_NOTE "^0123456789abcde\xc3\xa9\n"), "a note has at most 16 bytes"},
    {TEXT(AT_NOTE "^0123456789abcdef\\x00\n"), "a note has at most 16 bytes"},
    {TEXT(AT_NOTE "^\\\n"), "note \"\\\\\": a backslash stands before another one"},
    {TEXT(AT_NOTE "^a\\x4\n"), "a backslash stands before another one"},
    {TEXT(AT_NOTE "^a\\x4g\n"), "a backslash stands before another one"},
    {TEXT(AT_NOTE "^\\X41\n"), "a backslash stands before another one"},
    {TEXT(AT_NOTE "^\"\\n\"\n"), "a backslash stands before another one"},

    /* Struck records and bytes have no other cell. */
    {TEXT(HEADER "^1,struck,,,,,,,,,,\n"), "number \"1\": a struck record has no other cell"},
    {TEXT(HEADER ",struck,^0,,,,,,,,,\n"), "rate \"0\": a struck record has no other cell"},
    {TEXT(HEADER ",struck,,,,,,,,,^7,\n"), "share 4 \"7\": a struck record has no other cell"},
    {TEXT(HEADER ",struck,,,,,,,,,,^a\n"), "note \"a\": a struck record has no other cell"},
    {TEXT(HEADER "^1,bytes,,,,,,,,,,\n"), "number \"1\": a record as bytes has its note alone"},
    {TEXT(HEADER ",bytes,,,,,^7,,,,,\n"), "share 2 \"7\": a record as bytes has its note alone"},
    {TEXT(HEADER ",bytes,,,,,,,,,,^\n"), "note \"\": 80 hexadecimal digits are wanted"},
    {TEXT(HEADER ",bytes,,,,,,,,,,^" FIFTY TEN TEN "012345678\n"), "80 hexadecimal digits are wanted"},
    {TEXT(HEADER ",bytes,,,,,,,,,,^" FIFTY TEN TEN TEN "0\n"), "80 hexadecimal digits are wanted"},
    {TEXT(HEADER ",bytes,,,,,,,,,,^" FIFTY TEN TEN "012345678g\n"), "80 hexadecimal digits are wanted"},
    {TEXT(HEADER ",bytes,,,,,,,,,,^" FIFTY TEN TEN "01234567 9\n"), "80 hexadecimal digits are wanted"},

    /* The first fault of several, in reading's order. */
    {TEXT(HEADER "^a,b,c,,,,,,,,,\n"), "number \"a\""},
    {TEXT(HEADER "1,^b,c,,,,,,,,,\n"), "kind \"b\""},
    {TEXT(HEADER "x,y,z^\n"), "the line ends"},
    {TEXT(AT_NOTE "\n^x,injector,600,,,,,,,,,\n14\n"), "number \"x\""},

    /* Lines and columns after lines of every end, after a cell of several lines, and after characters of more bytes. */
    {TEXT(AT_NOTE "\r\n\r\n\n15,injector,^x,,,,,,,,,\n"), "rate \"x\""},
    {TEXT(AT_NOTE "\"a\nb\r\nc\"^d\n"), "after a closing quote"},
    {TEXT(AT_NOTE "\"a\nb\r\n\xc3\xa9\"\n15,injector,^x,,,,,,,,,\n"), "rate \"x\""},
    {TEXT(AT_NOTE "\"\n\n\xe4\xba\x95\xf0\x9f\x8c\x8b\"^,\n"), "the line goes on after 12 cells"},
    {TEXT(AT_NOTE "\xe4\xba\x95\xf0\x9f\x8c\x8b\xc3\xa9^\"\n"), "a quote stands in a cell"},
    {TEXT(BOM "number,^kinds,rate,injector 1,share 1,injector 2,share 2,injector 3,share 3,injector 4,share 4,note\n"),
     "the header's cell 2"},
    {TEXT(BOM HEADER "14,injector,^x,,,,,,,,,\n"), "rate \"x\""},
    {TEXT("opened,ab\n" HEADER "14,injector,^x,,,,,,,,,\n"), "rate \"x\""},
};

/* Takes the ^ away, and judges the fault of what is left by where it stood, in lines and characters. */
static void refused(const char *marked, size_t len, const char *words)
{
    uint8_t text[2048];
    size_t at = (size_t)((const char *)memchr(marked, '^', len) - marked), line = 1, column = 1;

    memcpy(text, marked, at);
    memcpy(text + at, marked + at + 1, len - at - 1);
    for (size_t i = len > 3 && memcmp(text, BOM, 3) == 0 ? 3 : 0; i < at; i++) {
        column = text[i] == '\n' ? 1 : column + (text[i] < 0x80 || text[i] >= 0xc0);
        line += text[i] == '\n';
    }
    is_refused(marked, text, len - 1, line, column, words);
}

/* Cells as they are written, and the whole text of csv.h. */
static void written(void)
{
    static const char *const cells[][2] = {
        {"", ""},
        {"north", "north"},
        {"a b", "a b"},
        {"a,b", "\"a,b\""},
        {"\"", "\"\"\"\""},
        {"a\"b\"", "\"a\"\"b\"\"\""},
        {"a\nb", "\"a\nb\""},
        {"a\rb", "\"a\rb\""},
        {" a", "\" a\""},
        {"a ", "\"a \""},
        {" ", "\" \""},
        {"=1+2", "\\x3d1+2"},
        {"+", "\\x2b"},
        {"-1", "\\x2d1"},
        {"@a,b", "\"\\x40a,b\""},
        {"\\\\x41", "\\\\x41"},
    };
    static const char of_csv_h[] =
        HEADER "1,producer,500,14,500,15,500,,,,,north\n14,injector,600,,,,,,,,,\n,struck,,,,,,,,,,\n";
    static uint8_t text[CSV_MOST];
    char cell[64];

    for (size_t i = 0; i < COUNT_OF(cells); i++) {
        size_t len = (size_t)(csv_cell(cell, cells[i][0]) - cell);
        check(len == strlen(cells[i][1]) && strcmp(cell, cells[i][1]) == 0, "%s is written as %s", cells[i][0], cell);
    }
    is_read("the text of csv.h", of_csv_h, strlen(of_csv_h));
    check(csv_write(text, &list, "") == strlen(of_csv_h) && memcmp(text, of_csv_h, strlen(of_csv_h)) == 0,
          "the text of csv.h is written as another");
}

/* A few places counted by hand, as the ^ is counted by a function that is much like the reader's. */
static void places(void)
{
    static const struct {
        const char *text;
        size_t line, column;
    } counted[] = {
        {"", 1, 1},
        {"number,kinds", 1, 13},
        {HEADER "1", 2, 2},
        {HEADER "\n\r\n1,2", 4, 4},
        {BOM "number;kind", 1, 12},
        {AT_NOTE "\"a\nb\"x", 3, 3},
        {AT_NOTE "\"a\nb\r\nccc\",", 4, 5},
        {AT_NOTE "\xe4\xba\x95\xf0\x9f\x8c\x8b\xc3\xa9,", 2, 28},
        {AT_NOTE "\n14,injector,1x", 3, 15},
        {AT_NOTE "\n14,injector,1x,,,,,,,,,", 3, 13},
    };

    for (size_t i = 0; i < COUNT_OF(counted); i++)
        is_refused(counted[i].text, counted[i].text, strlen(counted[i].text), counted[i].line, counted[i].column, "");
}

static void opened_lines(void)
{
    static const char *const digests[] = {"ab", DIGEST32, DIGEST32 DIGEST32, DIGEST32 DIGEST32 DIGEST32 DIGEST32};
    static const char *const forms[] = {"opened,%s\n" HEADER, "opened,\"%s\"\r\n" HEADER, BOM "opened,%s\n" HEADER,
                                        "opened,%s,,,,,,,,,,\n" HEADER};
    char text[512];

    for (size_t i = 0; i < COUNT_OF(digests); i++)
        for (size_t k = 0; k < COUNT_OF(forms); k++) {
            snprintf(text, sizeof text, forms[k], digests[i]);
            is_read("a text that was opened", text, strlen(text));
            check(list.n == 0 && strcmp(opened, digests[i]) == 0, "opened %s, not %s", opened, digests[i]);
            same_again(&list, digests[i]);
        }
    is_read("a text that was laid over another", TEXT("opened,ab,cd,,\n" HEADER));
    check(strcmp(opened, "ab,cd") == 0, "laid over, and opened %s", opened);
    same_again(&list, opened);
}

/* Adds a text to one that is being made as often as is said, and gives its length. */
static size_t add(uint8_t *text, size_t len, const char *more, size_t times)
{
    for (; times > 0; times--, len += strlen(more))
        memcpy(text + len, more, strlen(more));
    return len;
}

/* A full sheet and one well more, a text of CSV_MOST bytes and one byte more, and cells of 160 bytes. */
static void limits(void)
{
    static uint8_t text[CSV_MOST + 1];
    static const char *const lines[] = {"14,injector,600,,,,,,,,,\n", ",struck,,,,,,,,,,\r\n",
                                        "0,0,1,,,,,,,,,\"\n\"\n"};
    size_t len;

    for (size_t i = 0; i < COUNT_OF(lines); i++) {
        len = add(text, 0, HEADER, 1);
        len = add(text, len, lines[i], 1024);
        len = add(text, len, "\n", 2);
        is_read("a full sheet", text, len);
        check(list.n == 1024, "a full sheet has %zu wells", list.n);
        same_again(&list, "");
        len = add(text, len, lines[i], 1);
        is_refused("1025 wells", text, len, i == 2 ? 2052 : 1028, 1, "a sheet has at most 1024 wells");
    }

    len = add(text, 0, HEADER, 1);
    len = add(text, len, lines[0], 2);
    add(text, len, "\n", sizeof text - len);
    is_read("a text of CSV_MOST bytes", text, CSV_MOST);
    check(list.n == 2, "a text of CSV_MOST bytes has %zu wells", list.n);
    is_refused("a text of a byte more", text, CSV_MOST + 1, 1, 1, "the file has more than 524288 bytes");

    for (size_t quote = 0; quote < 2; quote++) {
        const char *quotes = quote ? "\"" : "";
        len = add(text, 0, HEADER, 1);
        len = add(text, len, quotes, 1);
        len = add(text, len, "0", 158);
        len = add(text, len, "14", 1);
        len = add(text, len, quotes, 1);
        len = add(text, len, ",injector,600,,,,,,,,,\n", 1);
        is_read("a cell of 160 bytes", text, len);
        check(list.n == 1 && well_number(list.records) == 14, "a cell of 160 bytes is %zu", well_number(list.records));
    }
}

/* A text that is cut off anywhere: within quotes, the quote isn't closed; before the last cell, cells are wanted; else
   the records are those of the whole text, but the last, of which the note may be shorter. */
static void cut_off(void)
{
    static const char whole[] = BOM
        "opened,abcd\n" HEADER "1,producer,500,14,500,15,500,,,,,\"north, \"\"7\"\"\"\r\n\r\n"
        ",struck,,,,,,,,,,\n,bytes,,,,,,,,,," FIFTY TEN TEN TEN "\n\" 14 \",INJECTOR,600,,,,,,,,,\"\\x00\r\nb\"\n"
        "15,injector,600,,,,,,,,,\\\\\xe4\xba\x95\\x41";
    static struct list all;
    size_t cells = 1, line = 1;
    int quoted = 0;

    is_read("the whole text", whole, strlen(whole));
    check(list.n == 5 && strcmp(opened, "abcd") == 0, "the whole text is read as another");
    all = list;
    for (size_t cut = strlen(BOM); cut < strlen(whole); cut++) {
        int done = read_lent(&list, opened, (const uint8_t *)whole, cut, &fault);
        size_t wanted = line == 1 && cut >= strlen(BOM "opened,") ? 2 : 12;

        if (quoted)
            check(!done && strstr(fault.words, "isn't closed"), "cut at %zu, in quotes: %s", cut, fault.words);
        else if (cells < wanted && (line <= 2 || whole[cut - 1] != '\n'))
            check(!done && strstr(fault.words, whole[cut - 1] == '\r' ? "carriage return" : "the line ends after"),
                  "cut at %zu: %s", cut, fault.words);
        else if (done)
            check(list.n <= all.n && (list.n < 2 || memcmp(list.records, all.records, RECORD * (list.n - 1)) == 0),
                  "cut at %zu: other records", cut);

        if (whole[cut] == '"')
            quoted = !quoted;
        cells += !quoted && whole[cut] == ',';
        if (whole[cut] == '\n') {
            line++;
            cells = quoted ? cells : 1;
        }
    }
}

void fixed_cases(void)
{
    read_wells();
    for (size_t i = 0; i < COUNT_OF(faults); i++)
        refused(faults[i].text, faults[i].len, faults[i].words);
    places();
    written();
    opened_lines();
    limits();
    cut_off();
    printf("csv: %zu texts read and %zu refused by hand\n", COUNT_OF(wells), COUNT_OF(faults));
}
