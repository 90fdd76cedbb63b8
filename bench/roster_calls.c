/* Makes calls of strap_take_roster and tests what they leave: texts that are taken, on empty tables and on others, the
 * records before a refused one, full tables, and the memory around. */
#include "calls.h"
#include "rosters.h"

/* Rosters written out by hand, and what they leave: what layout and inserts in the same order leave. */
static void taken_texts(void)
{
    static const char text[] = "b,10\r\n"
                               "\"a\",\"20\"\r\n"
                               "\"Lee, \"\"Bo\"\"\",65535\r\n"
                               "\"c\r\nd\",0\r\n"
                               "\"\"\"\",7\r\n"
                               " !#$+-/:[]~,9\r\n"
                               "x Y,1\r\n";
    static const uint16_t order[] = {6, 5, 2, 1, 4, 3, 7};
    layout();
    insert("b", 10);
    insert("a", 20);
    insert("Lee, \"Bo\"", 65535);
    insert("c\r\nd", 0);
    insert("\"", 7);
    insert(" !#$+-/:[]~", 9);
    insert("x Y", 1);
    keep();
    layout();
    takes("a roster without its last CRLF", (const uint8_t *)text, strlen(text) - 2, 7);
    as_kept("a roster without its last CRLF");
    layout();
    takes("a roster", (const uint8_t *)text, strlen(text), 7);
    as_kept("a roster");
    says("search b, taken", search("B"), STRAP_FOUND, 1, 10);
    says("search a, taken", search("a"), STRAP_FOUND, 2, 20);
    says("search Lee, taken", search("lee, \"bo\""), STRAP_FOUND, 3, 65535);
    says("search c CR LF d, taken", search("c\r\nd"), STRAP_FOUND, 4, 0);
    says("search a quote, taken", search("\""), STRAP_FOUND, 5, 7);
    says("search signs, taken", search(" !#$+-/:[]~"), STRAP_FOUND, 6, 9);
    says("search x y, taken", search("x y"), STRAP_FOUND, 7, 1);
    shows("the spelling taken", 3, "Lee, \"Bo\"");
    shows("the last spelling taken", 7, "x Y");
    says("listing of a roster", listing(SLOTS), STRAP_LISTED, 7, 0);
    if (memcmp(list, order, sizeof order) != 0)
        says("the order of a roster", 0, STRAP_LISTED, 7, 0);
    for (size_t slot = 1; slot <= 7; slot++)
        if (strap_charge_in(table, slot) != STRAP_UNKNOWN_CHARGE)
            says("a charge after a roster", 0, STRAP_TAKEN, 7, 0);
}

/* Rosters into a table that holds labels: the slots freed last are taken first, and charges stay. Once also the words
 * that a roster leaves. */
static void taken_after(void)
{
    static const uint16_t words[] = {1, 2, 0, 2,                 /* root, held, free, high mark */
                                     0, 2, 1, 0, 2, 1, 300, 255, /* a */
                                     0, 0, 1, 0, 1, 1, 0, 255 /* B */};
    layout();
    takes("a roster of a and B", TEXT("\"a\",300\r\nB,0"), 2);
    if (memcmp(table, words, sizeof words) != 0 || store[0] != 'a' || store[WIDTH] != 'B')
        says("the words of a roster", 0, STRAP_TAKEN, 2, 0);
    takes("nothing more", TEXT(""), 0);
    takes("a third record", TEXT("C,40\r\n"), 1);
    says("search c, taken third", search("c"), STRAP_FOUND, 3, 40);
    roster();
    set_charge("c", 57);
    delete("a");
    delete("b");
    insert("E", 5);
    insert("\"\"", 6);
    insert("f", 7);
    keep();
    roster();
    set_charge("c", 57);
    delete("a");
    delete("b");
    takes("a roster into freed slots", TEXT("E,5\r\n\"\"\"\"\"\",6\r\nf,7\r\n"), 3);
    as_kept("a roster into freed slots");
    says("search e, in the slot freed last", search("e"), STRAP_FOUND, 1, 5);
    says("search two quotes", search("\"\""), STRAP_FOUND, 2, 6);
    says("search f, in a new slot", search("f"), STRAP_FOUND, 5, 7);
    charges_are("after a roster", 255, 255, 255, 57);
}

/* The records before the refused one are in, with their values, and nothing else is. */
static void taken_before(void)
{
    roster();
    insert("e", 50);
    insert("\"f\"", 60);
    keep();
    roster();
    stops("7, at the third record", TEXT("e,50\r\n\"\"\"f\"\"\",60\r\nE,70\r\ng,80\r\n"), 3, STRAP_ALREADY_HELD);
    says("search e, before the refused one", search("e"), STRAP_FOUND, 5, 50);
    says("search f, before the refused one", search("\"F\""), STRAP_FOUND, 6, 60);
    lies_between("g", 5, 0);
    says("check after a refused roster", check(), STRAP_DONE, 0, 0);
    roster();
    stops("13, at the third record", TEXT("e,50\r\n\"\"\"f\"\"\",60\r\nE,070\r\ng,80\r\n"), 3, STRAP_BROKEN_RECORD);
    roster();
    stops("3, at the third record", TEXT("e,50\r\n\"\"\"f\"\"\",60\r\n\"\",7\r\ng,80\r\n"), 3, STRAP_EMPTY_LABEL);
    roster();
    stops("13, a blank line at the end", TEXT("e,50\r\n\"\"\"f\"\"\",60\r\n\r\n"), 3, STRAP_BROKEN_RECORD);
    roster();
    stops("13, a byte at the end", TEXT("e,50\r\n\"\"\"f\"\"\",60\r\n\032"), 3, STRAP_BROKEN_RECORD);
    roster();
    stops("13, a quote at the end", TEXT("e,50\r\n\"\"\"f\"\"\",60\r\n\""), 3, STRAP_BROKEN_RECORD);
    takes("what is left of a roster", TEXT("g,80\r\n"), 1);
    says("search g, taken after all", search("g"), STRAP_FOUND, 7, 80);
}

/* Writes the records of so many labels, each its three digits and so many x after them, its value 100 and its number;
 * how long that is. */
static size_t write_records(uint8_t *text, unsigned from, unsigned to, size_t more)
{
    size_t n = 0;
    for (unsigned i = from; i < to; i++) {
        spell((char *)text + n, i);
        n += 3 + repeated(text + n + 3, "", 'x', more, "");
        n += (size_t)sprintf((char *)text + n, ",%u\r\n", 100 + i);
    }
    return n;
}

/* The longest text, of as many records as there are slots, and what a full table refuses, each before 9. */
static void taken_full(void)
{
    static uint8_t text[STRAP_TEXT_BYTES + 100];
    char label[3 + 23 + 1] = "";
    size_t n = write_records(text, 0, SLOTS, 23);
    if (n != STRAP_TEXT_BYTES)
        says("the length of the longest text", 0, STRAP_TAKEN, 0, 0);
    layout();
    memset(label, 'x', sizeof label - 1);
    for (unsigned i = 0; i < SLOTS; i++) {
        spell(label, i);
        insert(label, (uint16_t)(100 + i));
    }
    keep();
    layout();
    takes("the longest text", text, n, SLOTS);
    as_kept("the longest text");
    stops("7 before 9", text, n, 1, STRAP_ALREADY_HELD);
    stops("7 before 9, respelled", TEXT("000XXXXXXXXXXXXXXXXXXXXXXX,1\r\n"), 1, STRAP_ALREADY_HELD);
    stops("9, a roster", TEXT("y,1\r\n"), 1, STRAP_FULL);
    stops("9, a roster of two", TEXT("y,1\r\n\"z\r\n"), 1, STRAP_FULL);
    stops("13 before 9", TEXT("y,1\n"), 1, STRAP_BROKEN_RECORD);
    stops("3 before 9", TEXT(",1\r\n"), 1, STRAP_EMPTY_LABEL);
    n = repeated(text, "", 'y', WIDTH + 1, ",1\r\n");
    stops("4 before 9", text, n, 1, STRAP_LONG_LABEL);
    takes("an empty text, full", TEXT(""), 0);
    as_kept("an empty text, full");
    n = write_records(text, 0, SLOTS, 23);
    text[n] = 'y';
    layout();
    keep();
    stops("12, a byte after the longest text", text, n + 1, 0, STRAP_LONG_TEXT);
}

/* Every slot but one is taken. */
static void all_but_one(void)
{
    static uint8_t text[STRAP_TEXT_BYTES];
    layout();
    take(text, write_records(text, 0, SLOTS, 0));
    delete("007");
}

/* A table that a roster fills with its first record, or with all but its last. */
static void filled(void)
{
    static uint8_t text[STRAP_TEXT_BYTES];
    all_but_one();
    insert("007", 107);
    keep();
    all_but_one();
    takes("the last slot", TEXT("007,107\r\n"), 1);
    as_kept("the last slot");
    all_but_one();
    stops("9, at the second record", TEXT("007,107\r\ny,1\r\nz,2\r\n"), 2, STRAP_FULL);
    all_but_one();
    stops("7 before 9, at the second record", TEXT("007,107\r\n\"000\",1\r\n"), 2, STRAP_ALREADY_HELD);
    all_but_one();
    stops("13, at the second record of a full table", TEXT("007,107\r\ny,01\r\n"), 2, STRAP_BROKEN_RECORD);
    layout();
    stopped("9, a record more than all", take(text, write_records(text, 0, SLOTS + 1, 0)), SLOTS + 1, STRAP_FULL);
    says("the first of all", search("000"), STRAP_FOUND, 1, 100);
    says("the last of all", search("777"), STRAP_FOUND, SLOTS, 611);
    lies_between("800", SLOTS, 0);
}

enum { AROUND = 8 };

static int held_before(const uint8_t *at, size_t bytes)
{
    int same = 1;
    for (size_t i = 0; i < bytes; i++)
        same &= at[i] == HELD_BEFORE;
    return same;
}

/* Nothing is written beyond table and store, nor into the text: with labels of 64 bytes in the first and the last slot,
 * and a record more than there are slots. */
static void taken_inside(void)
{
    static uint16_t words[AROUND + WORDS + AROUND];
    static uint8_t bytes[AROUND + BYTES + AROUND], text[STRAP_TEXT_BYTES], text_before[STRAP_TEXT_BYTES];
    size_t n = repeated(text, "", 'a', WIDTH, ",1\r\n");
    n += write_records(text + n, 2, SLOTS, 0);
    n += repeated(text + n, "\"", '"', 2 * WIDTH, "\",65535\r\n");
    n += repeated(text + n, "", 'z', WIDTH, ",1\r\n");
    memset(words, HELD_BEFORE, sizeof words);
    memset(bytes, HELD_BEFORE, sizeof bytes);
    memcpy(text_before, text, sizeof text);
    strap_layout(words + AROUND, WORDS, bytes + AROUND, BYTES);
    stopped("9, between other words", strap_take_roster(words + AROUND, WORDS, bytes + AROUND, BYTES, text, n),
            SLOTS + 1, STRAP_FULL);
    says("the table between other words", strap_check(words + AROUND, WORDS, bytes + AROUND, BYTES), STRAP_DONE, 0, 0);
    if (bytes[AROUND] != 'a' || bytes[AROUND + BYTES - 1] != '"' || words[AROUND + WORDS - 2] != 65535)
        says("the first and the last slot", 0, STRAP_REFUSED, STRAP_FULL, SLOTS + 1);
    if (!held_before((uint8_t *)words, 2 * AROUND) || !held_before((uint8_t *)(words + AROUND + WORDS), 2 * AROUND))
        says("words around the table", 0, STRAP_REFUSED, STRAP_FULL, SLOTS + 1);
    if (!held_before(bytes, AROUND) || !held_before(bytes + AROUND + BYTES, AROUND))
        says("bytes around the store", 0, STRAP_REFUSED, STRAP_FULL, SLOTS + 1);
    if (memcmp(text, text_before, sizeof text) != 0)
        says("the text", 0, STRAP_REFUSED, STRAP_FULL, SLOTS + 1);
}

int roster_calls(void)
{
    taken_texts();
    taken_after();
    taken_before();
    taken_full();
    filled();
    taken_inside();
    return failed;
}
