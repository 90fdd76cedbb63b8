/* Makes calls of strap_take_roster and tests which texts are taken: records that are broken, values and what is none,
 * each byte, and texts of which only a part is lent. */
#include "calls.h"
#include "rosters.h"

/* Records that are not as RFC 4180 has them, or have not two fields. */
static void broken_records(void)
{
    broken_record("13, a bare LF", TEXT("x,1\ny,2\r\n"));
    broken_record("13, a bare LF at the end", TEXT("x,1\n"));
    broken_record("13, a bare LF in front", TEXT("\nx,1\r\n"));
    broken_record("13, a bare LF in a label", TEXT("x\ny,1\r\n"));
    broken_record("13, a bare CR", TEXT("x,1\ry,2\r\n"));
    broken_record("13, a bare CR at the end", TEXT("x,1\r"));
    broken_record("13, a bare CR in a label", TEXT("x\ry,1\r\n"));
    broken_record("13, two CR", TEXT("x,1\r\r\n"));
    broken_record("13, LF CR", TEXT("x,1\n\r"));
    broken_record("13, a blank line", TEXT("\r\n"));
    broken_record("13, a blank line in front", TEXT("\r\nx,1\r\n"));
    broken_record("13, one field", TEXT("x\r\n"));
    broken_record("13, one field at the end", TEXT("x"));
    broken_record("13, one field, a number", TEXT("1\r\n"));
    broken_record("13, one quoted field", TEXT("\"x\"\r\n"));
    broken_record("13, one quoted field at the end", TEXT("\"x,1\""));
    broken_record("13, an empty quoted field", TEXT("\"\""));
    broken_record("13, a label and no value", TEXT("x\r\n1\r\n"));
    broken_record("13, a semicolon", TEXT("x;1\r\n"));
    broken_record("13, three fields", TEXT("x,1,2\r\n"));
    broken_record("13, three fields, the last empty", TEXT("x,1,\r\n"));
    broken_record("13, three fields, the last empty, at the end", TEXT("x,1,"));
    broken_record("13, three fields, the second empty", TEXT("x,,1\r\n"));
    broken_record("13, three quoted fields", TEXT("\"x\",\"1\",\"2\"\r\n"));
    broken_record("13, four fields", TEXT("Lee,Bo,1,2\r\n"));
    broken_record("13, a comma that is not quoted", TEXT("Lee, Bo,1\r\n"));
    broken_record("13, a header", TEXT("label,value\r\nx,1\r\n"));
    broken_record("13, byte 127", TEXT("x\177,1\r\n"));
    broken_record("13, byte 127, quoted", TEXT("\"x\177\",1\r\n"));
    broken_record("13, byte 127 after a value", TEXT("x,1\177"));
    broken_record("13, byte 9", TEXT("\tx,1\r\n"));
    broken_record("13, byte 9, quoted", TEXT("\"x\t\",1\r\n"));
    broken_record("13, byte 9 for a comma", TEXT("x\t1\r\n"));
    broken_record("13, byte 0", TEXT("x\0,1\r\n"));
    broken_record("13, byte 0 after a value", TEXT("x,1\0"));
    broken_record("13, a byte order mark", TEXT("\357\273\277x,1\r\n"));
    broken_record("13, a letter above 126", TEXT("J\303\266rg,1\r\n"));
    broken_record("13, a letter above 126, quoted", TEXT("\"J\303\266rg\",1\r\n"));
    broken_record("13, a quote in a bare field", TEXT("x\"y,1\r\n"));
    broken_record("13, two quotes in a bare field", TEXT("x\"\"y,1\r\n"));
    broken_record("13, a bare field ended by a quote", TEXT("x\",1\r\n"));
    broken_record("13, a quoted field after a space", TEXT("x, \"1\"\r\n"));
    broken_record("13, text after a closing quote", TEXT("\"x\"y,1\r\n"));
    broken_record("13, a space after a closing quote", TEXT("\"x\" ,1\r\n"));
    broken_record("13, a quoted field after a closing quote", TEXT("\"x\"\"y\"z\",1\r\n"));
    broken_record("13, text after a quoted value", TEXT("x,\"1\"2\r\n"));
    broken_record("13, a bare LF after a quoted value", TEXT("x,\"1\"\n"));
    broken_record("13, an unclosed quote", TEXT("\"x,1\r\n"));
    broken_record("13, an unclosed quote alone", TEXT("\""));
    broken_record("13, three quotes", TEXT("\"\"\",1\r\n"));
    broken_record("13, an unclosed quote after two", TEXT("\"x\"\"\r\n"));
    broken_record("13, an unclosed quote around a value", TEXT("x,\"1\r\n"));
    broken_record("13, an unclosed quote around a value at the end", TEXT("x,\"1"));
    broken_record("13, a value of an unclosed quote", TEXT("x,\""));
    broken_record("13, no label and no value", TEXT(","));
    broken_record("13, nothing but commas", TEXT(",,\r\n"));
}

/* A value, bare and quoted, in both the last record and one before it. */
static void takes_value(const char *digits, unsigned value)
{
    char text[100];
    int n = snprintf(text, sizeof text, "x,%s\r\n\"y\",\"%s\"", digits, digits);
    layout();
    takes(digits, (const uint8_t *)text, (size_t)n, 2);
    says(digits, search("x"), STRAP_FOUND, 1, value);
    says(digits, search("y"), STRAP_FOUND, 2, value);
}

static void no_value(const char *digits)
{
    static const char *const record[] = {"x,%s\r\n", "x,%s", "\"x\",\"%s\"\r\n"};
    char text[100];
    for (size_t i = 0; i < sizeof record / sizeof *record; i++) {
        int n = snprintf(text, sizeof text, record[i], digits);
        broken_record(digits, (const uint8_t *)text, (size_t)n);
    }
}

/* Decimals from 0 to 65535 without needless zeros, and what is none: whole numbers that are these after so many bits
 * are lost, too. */
static void values(void)
{
    takes_value("0", 0);
    takes_value("1", 1);
    takes_value("9", 9);
    takes_value("10", 10);
    takes_value("100", 100);
    takes_value("4096", 4096);
    takes_value("9999", 9999);
    takes_value("10000", 10000);
    takes_value("32768", 32768);
    takes_value("59999", 59999);
    takes_value("65529", 65529);
    takes_value("65530", 65530);
    takes_value("65535", 65535);
    no_value("65536");
    no_value("65537");
    no_value("65540");
    no_value("65600");
    no_value("66000");
    no_value("70000");
    no_value("99999");
    no_value("100000");
    no_value("131072");
    no_value("655350");
    no_value("4294967296");
    no_value("4294967303");
    no_value("18446744073709551616");
    no_value("18446744073709551617");
    no_value("340282366920938463463374607431768211463");
    no_value("007");
    no_value("07");
    no_value("00");
    no_value("000000");
    no_value("065535");
    no_value("");
    no_value("-1");
    no_value("-0");
    no_value("+1");
    no_value(" 1");
    no_value("1 ");
    no_value("1 2");
    no_value("1.0");
    no_value("1e1");
    no_value("0x1");
    no_value("1a");
    no_value("a1");
    no_value("1/");
    no_value("1:");
    broken_record("13, a quote in a value", TEXT("x,\"1\"\"2\"\r\n"));
    broken_record("13, a CRLF in a value", TEXT("x,\"1\r\n\"\r\n"));
    broken_record("13, a comma in a value", TEXT("x,\"1,2\"\r\n"));
}

/* Each byte as a label of its own, bare and quoted, and as a value. */
static void each_byte(void)
{
    for (unsigned byte = 0; byte < 256; byte++) {
        const uint8_t b = (uint8_t)byte;
        const uint8_t bare[] = {b, ',', '1'}, quoted[] = {'"', b, '"', ',', '1'}, value[] = {'x', ',', b};
        int textdata = (b >= 32 && b <= 33) || (b >= 35 && b <= 43) || (b >= 45 && b <= 126);
        int inner = textdata || b == 44 || b == 13 || b == 10;
        layout();
        keep();
        if (textdata)
            takes("a byte", bare, sizeof bare, 1);
        else
            stops("13, a byte", bare, sizeof bare, 1, STRAP_BROKEN_RECORD);
        layout();
        if (inner)
            takes("a byte, quoted", quoted, sizeof quoted, 1);
        else
            stops("13, a byte, quoted", quoted, sizeof quoted, 1, STRAP_BROKEN_RECORD);
        if (inner && store[0] != b)
            says("the byte of a label", 0, STRAP_TAKEN, 1, 0);
        layout();
        if (b >= '0' && b <= '9')
            takes("a byte as a value", value, sizeof value, 1);
        else
            stops("13, a byte as a value", value, sizeof value, 1, STRAP_BROKEN_RECORD);
    }
}

/* Bytes of a text beyond the length that is lent are not read. */
static void cut_texts(void)
{
    layout();
    insert("x", 1);
    keep();
    layout();
    takes("a value cut short", (const uint8_t *)"x,123\r\n", 3, 1);
    as_kept("a value cut short");
    layout();
    takes("a CRLF not lent", (const uint8_t *)"x,1\r\ny,2\r\n", 3, 1);
    as_kept("a CRLF not lent");
    layout();
    takes("a record not lent", (const uint8_t *)"x,1\r\ny,2\r\n", 5, 1);
    as_kept("a record not lent");
    layout();
    takes("a closing quote at the end", (const uint8_t *)"x,\"1\"\"", 5, 1);
    as_kept("a closing quote at the end");
    layout();
    stops("13, half a CRLF at the end", (const uint8_t *)"x,1\r\ny,2\r\n", 9, 2, STRAP_BROKEN_RECORD);
    layout();
    stops("13, a value not lent", (const uint8_t *)"x,1\r\ny,2\r\n", 7, 2, STRAP_BROKEN_RECORD);
    layout();
    stops("13, a comma not lent", (const uint8_t *)"x,1\r\ny,2\r\n", 6, 2, STRAP_BROKEN_RECORD);
    layout();
    stops("13, half of two quotes", (const uint8_t *)"x,1\r\n\"y\"\"\",2", 8, 2, STRAP_BROKEN_RECORD);
    layout();
    stops("13, a quote not lent", (const uint8_t *)"x,1\r\n\"y\",2\r\n", 7, 2, STRAP_BROKEN_RECORD);
}

int roster_texts(void)
{
    broken_records();
    values();
    each_byte();
    cut_texts();
    return failed;
}
