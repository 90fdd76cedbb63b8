/* Makes calls of strap_take_roster and tests what it refuses beside broken records: labels by their length or because
 * they are held, tables that are not sound, and memory and texts by their length; each before those after it. */
#include "calls.h"
#include "rosters.h"

/* Labels of length 0, 64 and 65, by what the quotes leave of them; each before what is tested after it. */
static void label_lengths(void)
{
    static uint8_t text[STRAP_TEXT_BYTES];
    char label[WIDTH + 1] = "";
    size_t n;
    first_stops("3, no label", TEXT(",1\r\n"), STRAP_EMPTY_LABEL);
    first_stops("3, an empty quoted label", TEXT("\"\",1"), STRAP_EMPTY_LABEL);
    broken_record("13 before 3", TEXT(",x\r\n"));
    broken_record("13 before 3, quoted", TEXT("\"\",65536\r\n"));
    broken_record("13 before 3, three fields", TEXT(",1,\r\n"));
    n = repeated(text, "", 'x', WIDTH + 1, ",1\r\n");
    first_stops("4, 65 bytes", text, n, STRAP_LONG_LABEL);
    n = repeated(text, "\"", 'x', WIDTH + 1, "\",1\r\n");
    first_stops("4, 65 quoted bytes", text, n, STRAP_LONG_LABEL);
    n = repeated(text, "\"", '"', 2 * (WIDTH + 1), "\",1\r\n");
    first_stops("4, 65 doubled quotes", text, n, STRAP_LONG_LABEL);
    n = repeated(text, "\"", 'x', WIDTH, "\"\"\",1\r\n");
    first_stops("4, 64 bytes and a doubled quote", text, n, STRAP_LONG_LABEL);
    n = repeated(text, "", 'x', STRAP_TEXT_BYTES - 20, ",1\r\n");
    first_stops("4, a very long label", text, n, STRAP_LONG_LABEL);
    n = repeated(text, "\"", '"', STRAP_TEXT_BYTES - 20, "\",1\r\n");
    first_stops("4, very many doubled quotes", text, n, STRAP_LONG_LABEL);
    n = repeated(text, "", 'x', WIDTH + 1, ",01\r\n");
    broken_record("13 before 4", text, n);
    n = repeated(text, "", 'x', WIDTH + 1, "\r\n");
    broken_record("13 before 4, one field", text, n);
    layout();
    n = repeated(text, "", 'x', WIDTH, ",1\r\n\"");
    n += repeated(text + n, "", 'y', WIDTH, "\",2\r\n\"");
    n += repeated(text + n, "", '"', 2 * WIDTH, "\",3\r\n\"");
    n += repeated(text + n, "\"\"", 'z', WIDTH - 2, "\"\"\",4\r\n");
    takes("labels of 64 bytes", text, n, 4);
    memset(label, 'x', WIDTH);
    says("search of 64 bytes", search(label), STRAP_FOUND, 1, 1);
    memset(label, 'y', WIDTH);
    says("search of 64 quoted bytes", search(label), STRAP_FOUND, 2, 2);
    memset(label, '"', WIDTH);
    says("search of 64 quotes", search(label), STRAP_FOUND, 3, 3);
    memset(label + 1, 'z', WIDTH - 2);
    says("search of 62 bytes between quotes", search(label), STRAP_FOUND, 4, 4);
}

/* Labels that are held already, in any spelling, in the table or in the text. */
static void held_already(void)
{
    first_stops("7, in the table", TEXT("a,1\r\n"), STRAP_ALREADY_HELD);
    first_stops("7, respelled", TEXT("DD,1\r\nx,1\r\n"), STRAP_ALREADY_HELD);
    first_stops("7, respelled and quoted", TEXT("\"Dd\",1"), STRAP_ALREADY_HELD);
    broken_record("13 before 7", TEXT("a,1\n"));
    broken_record("13 before 7, of the value", TEXT("a,\r\n"));
    layout();
    insert("anna", 10);
    keep();
    layout();
    stops("7, twice in a text", TEXT("anna,10\r\nanna,10\r\n"), 2, STRAP_ALREADY_HELD);
    layout();
    stops("7, twice in a text, respelled", TEXT("\"anna\",10\r\nANNA,20"), 2, STRAP_ALREADY_HELD);
    says("the value first taken", search("Anna"), STRAP_FOUND, 1, 10);
    shows("the spelling first taken", 1, "anna");
    layout();
    takes("a quoted label and a longer one", TEXT("anna,1\r\n\"\"\"anna\"\"\",2\r\n"), 2);
}

/* A table that is not sound: each record's own tests come before, no later record is looked at, and without a record
 * nothing is tested. */
static void not_sound(void)
{
    static uint8_t text[WIDTH + 20];
    size_t n = repeated(text, "", 'x', WIDTH + 1, ",1\r\n");
    roster();
    table[0] = SLOTS + 1;
    keep();
    stops("6, a roster", TEXT("x,1\r\n"), 1, STRAP_NOT_SOUND);
    stops("6, a roster of two", TEXT("x,1\r\ny,2\r\n"), 1, STRAP_NOT_SOUND);
    stops("6 before the next record's 13", TEXT("x,1\r\ny\r\n"), 1, STRAP_NOT_SOUND);
    stops("6 before 7", TEXT("a,1\r\n"), 1, STRAP_NOT_SOUND);
    stops("13 before 6", TEXT("x,1\n"), 1, STRAP_BROKEN_RECORD);
    stops("13 before 6, of the value", TEXT("x,65536\r\n"), 1, STRAP_BROKEN_RECORD);
    stops("3 before 6", TEXT(",1\r\n"), 1, STRAP_EMPTY_LABEL);
    stops("4 before 6", text, n, 1, STRAP_LONG_LABEL);
    says("an empty text, not sound", take(TEXT("")), STRAP_TAKEN, 0, 0);
    as_kept("an empty text, not sound");
    spoil();
    keep();
    says("an empty text on anything", take(TEXT("")), STRAP_TAKEN, 0, 0);
    as_kept("an empty text on anything");
    stops("6, on anything", TEXT("x,1\r\n"), 1, STRAP_NOT_SOUND);
    roster();
    store[BYTES - 1] = 1;
    keep();
    stops("6, a byte of the store", TEXT("x,1\r\n"), 1, STRAP_NOT_SOUND);
    store[BYTES - 1] = 0;
    keep();
    takes("an empty text, sound", TEXT(""), 0);
    as_kept("an empty text, sound");
}

/* A roster is refused at record 0, and leaves the memory as it was. */
static void takes_nothing(const char *what, size_t words, size_t bytes, const uint8_t *text, size_t n,
                          enum strap_refusal number)
{
    keep();
    stopped(what, strap_take_roster(table, words, store, bytes, text, n), 0, number);
    as_kept(what);
}

/* Memory of other lengths, then a text that is too long, before all else. */
static void lent_lengths(void)
{
    static uint8_t text[2 * STRAP_TEXT_BYTES];
    size_t longer = STRAP_TEXT_BYTES + 1;
    roster();
    repeated(text, "x,1\r\ny,\"", ' ', STRAP_TEXT_BYTES - 10, "\"\r\n");
    takes_nothing("12, a byte more", WORDS, BYTES, text, longer, STRAP_LONG_TEXT);
    takes_nothing("12, twice as long", WORDS, BYTES, text, sizeof text, STRAP_LONG_TEXT);
    takes_nothing("1, a word less", WORDS - 1, BYTES, TEXT("x,1\r\n"), STRAP_WRONG_TABLE);
    takes_nothing("1, no words and no text", 0, BYTES, TEXT(""), STRAP_WRONG_TABLE);
    takes_nothing("2, a byte less", WORDS, BYTES - 1, TEXT("x,1\r\n"), STRAP_WRONG_STORE);
    takes_nothing("2, no bytes and no text", WORDS, 0, TEXT(""), STRAP_WRONG_STORE);
    takes_nothing("1 before 2 and 12", OTHER_WORDS, OTHER_BYTES, text, longer, STRAP_WRONG_TABLE);
    takes_nothing("1 before 12", WORDS - 1, BYTES, text, longer, STRAP_WRONG_TABLE);
    takes_nothing("2 before 12", WORDS, OTHER_BYTES, text, longer, STRAP_WRONG_STORE);
    takes_nothing("1 before 13", WORDS - 1, BYTES, TEXT("x\n"), STRAP_WRONG_TABLE);
    takes_nothing("2 before 3", WORDS, BYTES - 1, TEXT(",1"), STRAP_WRONG_STORE);
    memset(text, 'x', sizeof text);
    takes_nothing("12 before 13", WORDS, BYTES, text, longer, STRAP_LONG_TEXT);
    stops("13, the longest text", text, STRAP_TEXT_BYTES, 1, STRAP_BROKEN_RECORD);
    table[0] = SLOTS + 1;
    takes_nothing("12 before 6", WORDS, BYTES, text, longer, STRAP_LONG_TEXT);
    takes_nothing("1 before 6", WORDS - 1, BYTES, TEXT("x,1\r\n"), STRAP_WRONG_TABLE);
}

int roster_refusals(void)
{
    label_lengths();
    held_already();
    not_sound();
    lent_lengths();
    return failed;
}
