/*
 * prices.c - the worked example: a wholesaler's prices, put, billed, mended.
 *
 * ACCOUNTS (manual) hold the customers. PRICES (detail) holds one line for
 * each price agreed with an account, chained to the account in the order of
 * its dates. ARTICLES (automatic) comes and goes with the lines.
 *
 * Billing reads an account's chain backward: the first line met with the
 * article is the price billed. If two prices were agreed on one day, the one
 * put second must stand last. An engine that let a new line also pass the
 * lines that sort equal would bill the older price.
 *
 * gcc -I hosts/c hosts/c/prices.c libmaltorhu.a
 */
#include "maltorhu.h"

#include <inttypes.h>
#include <stdio.h>
#include <stdlib.h>
#include <string.h>

enum { ACCOUNT = 1, NAME, ARTICLE, PRICE, DATE, ITEMS = DATE };
enum { ACCOUNTS = 1, ARTICLES, PRICES, SETS = PRICES };

enum { NAME_WORDS = 10, ARTICLE_WORDS = 4 };
enum { ACCOUNT_ENTRY = 1 + NAME_WORDS, LINE_ENTRY = 1 + ARTICLE_WORDS + 2 + 2 };

/* DATE is the last item of a line, so nothing behind it can order the chain. */
static const struct {
    uint16_t item_count, set_count;
    maltorhu_item items[ITEMS];
    maltorhu_set sets[SETS];
} root = {
    ITEMS, SETS,
    {
        { MALTORHU_K, 1 },              /* ACCOUNT */
        { MALTORHU_X, NAME_WORDS },     /* NAME */
        { MALTORHU_X, ARTICLE_WORDS },  /* ARTICLE */
        { MALTORHU_K, 2 },              /* PRICE, in cents */
        { MALTORHU_K, 2 },              /* DATE, as yyyymmdd */
    },
    {
        { .kind = MALTORHU_MANUAL, .capacity = 11, .key = ACCOUNT,
          .item_count = 2, .items = { ACCOUNT, NAME } },
        { .kind = MALTORHU_AUTOMATIC, .capacity = 11, .key = ARTICLE,
          .item_count = 1, .items = { ARTICLE } },
        { .kind = MALTORHU_DETAIL, .capacity = 20,
          .item_count = 4, .items = { ACCOUNT, ARTICLE, PRICE, DATE },
          .path_count = 2, .paths = { { ACCOUNTS, ACCOUNT, DATE },
                                      { ARTICLES, ARTICLE, 0 } } },
    },
};

#define ROOT_WORDS (sizeof root / sizeof(uint16_t))
#define ROOT (const uint16_t *)&root, ROOT_WORDS

typedef struct {
    uint16_t *area;
    size_t area_words;
    uint32_t cursors[MALTORHU_CURSORS];
    uint16_t status[MALTORHU_STATUS];
    uint16_t passed[MALTORHU_PASSED];
} session;

typedef struct {
    uint16_t number;
    char name[2 * NAME_WORDS + 1];
} account;

typedef struct {
    uint16_t account;
    char article[2 * ARTICLE_WORDS + 1];
    uint32_t date;
    uint32_t price;
    uint32_t record;                /* 0: not stored */
} line;

/* ---- When something comes that the program has no answer to ------------- */

static _Noreturn void stop(const char *what)
{
    fprintf(stderr, "prices: %s\n", what);
    exit(EXIT_FAILURE);
}

static void must_be(int wanted, int condition, const char *what)
{
    if (condition == wanted)
        return;
    fprintf(stderr, "prices: %s: condition %d\n", what, condition);
    exit(EXIT_FAILURE);
}

static void must(int condition, const char *what)
{
    must_be(MALTORHU_DONE, condition, what);
}

/* ---- The calls, each once; each gives the condition word ---------------- */

static int answer(const session *s, uint16_t returned)
{
    if (returned != 0)
        stop("cursors, status or passed of the wrong length");
    return maltorhu_condition(s->status);
}

static int make(session *s)
{
    return answer(s, dbmake(ROOT, s->area, s->area_words,
                            s->status, MALTORHU_STATUS));
}

static int find(session *s, uint16_t item, const uint16_t *value, size_t words)
{
    return answer(s, dbfind(ROOT, s->area, s->area_words,
                            s->cursors, MALTORHU_CURSORS,
                            PRICES, item, value, words,
                            s->status, MALTORHU_STATUS));
}

static int get(session *s, uint16_t set, uint16_t mode, uint16_t key,
               uint16_t *entry, size_t words)
{
    return answer(s, dbget(ROOT, s->area, s->area_words,
                           s->cursors, MALTORHU_CURSORS,
                           set, mode, 0, &key, 1, entry, words,
                           s->status, MALTORHU_STATUS));
}

static int put(session *s, uint16_t set, const uint16_t *entry, size_t words)
{
    return answer(s, dbput(ROOT, s->area, s->area_words,
                           s->cursors, MALTORHU_CURSORS,
                           set, entry, words,
                           s->status, MALTORHU_STATUS,
                           s->passed, MALTORHU_PASSED));
}

static int update(session *s, uint16_t set, const uint16_t *entry, size_t words)
{
    return answer(s, dbupdate(ROOT, s->area, s->area_words,
                              s->cursors, MALTORHU_CURSORS,
                              set, entry, words,
                              s->status, MALTORHU_STATUS));
}

static int delete(session *s, uint16_t set)
{
    return answer(s, dbdelete(ROOT, s->area, s->area_words,
                              s->cursors, MALTORHU_CURSORS,
                              set, s->status, MALTORHU_STATUS));
}

/* ---- Entries: words on the engine's side, fields on ours ---------------- */

static void pack(const char *text, uint16_t *words, size_t count)
{
    if (dbpack((const uint8_t *)text, strlen(text), words, count) != 0)
        stop("a text too long for its item");
}

/* Text without the blanks at its end; it has room for 2 * count + 1. */
static void unpack(const uint16_t *words, size_t count, char *text)
{
    size_t length = 2 * count;

    if (dbunpack(words, count, (uint8_t *)text, length) != 0)
        stop("an item too long for its text");
    while (length > 0 && text[length - 1] == ' ')
        length--;
    text[length] = '\0';
}

static void account_to_entry(const account *a, uint16_t *entry)
{
    entry[0] = a->number;
    pack(a->name, entry + 1, NAME_WORDS);
}

static void entry_to_account(const uint16_t *entry, account *a)
{
    a->number = entry[0];
    unpack(entry + 1, NAME_WORDS, a->name);
}

static void line_to_entry(const line *l, uint16_t *entry)
{
    entry[0] = l->account;
    pack(l->article, entry + 1, ARTICLE_WORDS);
    maltorhu_store(entry + 1 + ARTICLE_WORDS, l->price);
    maltorhu_store(entry + 3 + ARTICLE_WORDS, l->date);
}

static void entry_to_line(const uint16_t *entry, line *l)
{
    l->account = entry[0];
    unpack(entry + 1, ARTICLE_WORDS, l->article);
    l->price = maltorhu_number(entry + 1 + ARTICLE_WORDS);
    l->date = maltorhu_number(entry + 3 + ARTICLE_WORDS);
}

static int get_account(session *s, uint16_t mode, uint16_t number, account *a)
{
    uint16_t entry[ACCOUNT_ENTRY];
    int condition = get(s, ACCOUNTS, mode, number, entry, ACCOUNT_ENTRY);

    if (condition == MALTORHU_DONE)
        entry_to_account(entry, a);
    return condition;
}

static int get_line(session *s, uint16_t mode, line *l)
{
    uint16_t entry[LINE_ENTRY];
    int condition = get(s, PRICES, mode, 0, entry, LINE_ENTRY);

    if (condition == MALTORHU_DONE) {
        entry_to_line(entry, l);
        l->record = maltorhu_record(s->status);
    }
    return condition;
}

/* The next line of the chain in this direction; 0 at the chain's end. */
static int next_line(session *s, uint16_t mode, line *l)
{
    int condition = get_line(s, mode, l);

    if (condition == MALTORHU_END_OF_CHAIN
        || condition == MALTORHU_BEGIN_OF_CHAIN)
        return 0;
    must(condition, "reading a chain");
    return 1;
}

static int find_account(session *s, uint16_t number)
{
    return find(s, ACCOUNT, &number, 1);
}

static int find_article(session *s, const char *article)
{
    uint16_t value[ARTICLE_WORDS];

    pack(article, value, ARTICLE_WORDS);
    return find(s, ARTICLE, value, ARTICLE_WORDS);
}

/* ---- What is printed ---------------------------------------------------- */

static void print_money(int width, uint32_t cents)
{
    printf("%*" PRIu32 ".%02" PRIu32, width, cents / 100, cents % 100);
}

static void print_date(uint32_t date)
{
    printf("%04" PRIu32 "-%02" PRIu32 "-%02" PRIu32,
           date / 10000, date / 100 % 100, date % 100);
}

static void show_account(const account *a, uint32_t record)
{
    printf("  %4" PRIu16 "  %-20s  record %4" PRIu32 "\n",
           a->number, a->name, record);
}

static void show_line(const line *l, const char *remark)
{
    printf("  %4" PRIu16 "  %-8s  ", l->account, l->article);
    print_date(l->date);
    printf("  ");
    print_money(4, l->price);
    if (l->record != 0)
        printf("  record %4" PRIu32, l->record);
    printf("%s\n", remark);
}

static void show_chain(session *s, uint16_t mode)
{
    line l;

    printf("chain of %" PRIu32 " lines, %s\n", maltorhu_count(s->status),
           mode == MALTORHU_GET_FORWARD ? "forward" : "backward");
    while (next_line(s, mode, &l))
        show_line(&l, "");
}

static void show_account_chain(session *s, uint16_t number, uint16_t mode)
{
    must(find_account(s, number), "finding an account's chain");
    printf("\nAccount %" PRIu16 ", ", number);
    show_chain(s, mode);
}

static void show_article_chain(session *s, const char *article)
{
    must(find_article(s, article), "finding an article's chain");
    printf("\nArticle %s, ", article);
    show_chain(s, MALTORHU_GET_FORWARD);
}

/* ---- The wholesaler's day ----------------------------------------------- */

static void open_base(session *s)
{
    memset(s, 0, sizeof *s);
    s->area_words = maltorhu_area_words(root.items, ITEMS, root.sets, SETS);
    s->area = calloc(s->area_words, sizeof *s->area);
    if (s->area == NULL)
        stop("no memory for the area");
    must(make(s), "making the base");
    printf("PRICES: root %zu words, area %zu words\n",
           ROOT_WORDS, s->area_words);
}

static void open_accounts(session *s)
{
    static const account accounts[] = {
        { 1001, "BAKER AND SONS" },
        { 1012, "CORNER SHOP" },
        { 1002, "DAILY BREAD" },
    };
    uint16_t entry[ACCOUNT_ENTRY];

    printf("\nAccounts opened\n");
    for (size_t i = 0; i < sizeof accounts / sizeof *accounts; i++) {
        account_to_entry(&accounts[i], entry);
        must(put(s, ACCOUNTS, entry, ACCOUNT_ENTRY), "opening an account");
        show_account(&accounts[i], maltorhu_record(s->status));
    }
}

/* A price for an account that is not there is told and set aside. */
static void put_line(session *s, line l)
{
    uint16_t entry[LINE_ENTRY];
    char remark[64];
    int condition;

    line_to_entry(&l, entry);
    condition = put(s, PRICES, entry, LINE_ENTRY);
    if (condition == MALTORHU_NO_MASTER_1) {
        snprintf(remark, sizeof remark, "  refused, %d: no account %" PRIu16,
                 condition, l.account);
    } else {
        must(condition, "putting a price");
        l.record = maltorhu_record(s->status);
        snprintf(remark, sizeof remark, ", passed %" PRIu16, s->passed[0]);
    }
    show_line(&l, remark);
}

static void put_prices(session *s)
{
    static const line lines[] = {
        { 1001, "FLOUR-25", 20250311, 1840, 0 },
        { 1001, "FLOUR-25", 20250304, 1795, 0 },
        { 1001, "SUGAR-50", 20250307, 3120, 0 },
        { 1002, "FLOUR-25", 20250305, 1875, 0 },
        { 1001, "FLOUR-25", 20250311, 1810, 0 },
        { 1002, "SALT-10",  20250301,  460, 0 },
        { 1009, "FLOUR-25", 20250311, 1825, 0 },
    };

    printf("\nPrices put, in the order in which they came\n");
    for (size_t i = 0; i < sizeof lines / sizeof *lines; i++)
        put_line(s, lines[i]);
}

/* The price billed: the last line of the account's chain with the article. */
static line price_for(session *s, uint16_t number, const char *article)
{
    line l;

    must(find_account(s, number), "finding the account to bill");
    while (next_line(s, MALTORHU_GET_BACK, &l))
        if (strcmp(l.article, article) == 0)
            return l;
    stop("no price for the article");
}

static uint32_t bill(session *s, uint16_t number, const char *article,
                     uint32_t quantity)
{
    uint32_t price = price_for(s, number, article).price;
    uint32_t amount = quantity * price;

    printf("  %-8s  %4" PRIu32 " at ", article, quantity);
    print_money(4, price);
    printf("  ");
    print_money(6, amount);
    printf("\n");
    return amount;
}

/*
 * Nothing was deleted yet, so of two records the one with the higher number
 * was put later.
 */
static void show_second_price_billed(session *s, uint16_t number,
                                     const char *article)
{
    line billed = price_for(s, number, article), behind;

    must(get_line(s, MALTORHU_GET_BACK, &behind), "reading the line behind");
    if (behind.date != billed.date || behind.record > billed.record)
        stop("the older of two prices of a day is billed");
    show_line(&billed, ", put second that day: billed");
    show_line(&behind, ", put first that day");
}

static void invoice(session *s, uint16_t number)
{
    account a;
    uint32_t total;

    must(get_account(s, MALTORHU_GET_KEY, number, &a), "reading the account");
    printf("\nInvoice for account %" PRIu16 ", %s\n", a.number, a.name);
    total = bill(s, number, "FLOUR-25", 40);
    total += bill(s, number, "SUGAR-50", 12);
    printf("  %-27s", "total");
    print_money(6, total);
    printf("\n");
    show_second_price_billed(s, number, "FLOUR-25");
}

/* Writes the current line back as the clerk changed it. */
static int update_line(session *s, const line *l)
{
    uint16_t entry[LINE_ENTRY];

    line_to_entry(l, entry);
    return update(s, PRICES, entry, LINE_ENTRY);
}

static void correct(session *s, uint16_t number)
{
    line l = price_for(s, number, "SUGAR-50");

    printf("\nCorrections\n");
    l.price = 3090;
    must(update_line(s, &l), "correcting a price");
    must(get_line(s, MALTORHU_GET_CURRENT, &l), "reading the line again");
    show_line(&l, ", updated");

    l.date = 20250308;
    must_be(MALTORHU_FIXED_ITEM, update_line(s, &l), "changing a date");
    show_line(&l, ", refused, 41: delete it and put it again");
}

/* After a delete the cursor still knows the lines on both sides. */
static void withdraw(session *s, uint16_t number)
{
    line l = price_for(s, number, "FLOUR-25");

    printf("\nA price withdrawn\n");
    must(get_line(s, MALTORHU_GET_BACK, &l), "reading the line behind");
    must(delete(s, PRICES), "withdrawing a price");
    show_line(&l, ", deleted");
    must(get_line(s, MALTORHU_GET_FORWARD, &l), "reading on forward");
    show_line(&l, ", read on forward");
    must(get_line(s, MALTORHU_GET_BACK, &l), "reading on backward");
    show_line(&l, ", read on backward");
    put_line(s, (line){ number, "SUGAR-50", 20250310, 3050, 0 });
}

static void delete_lines(session *s, uint16_t number)
{
    line l;

    must(find_account(s, number), "finding the lines to delete");
    printf("  %" PRIu32 " lines go first\n", maltorhu_count(s->status));
    while (next_line(s, MALTORHU_GET_FORWARD, &l)) {
        must(delete(s, PRICES), "deleting a line");
        show_line(&l, ", deleted");
    }
}

/* An account with lines is refused; its lines go first. */
static void close_account(session *s, uint16_t number)
{
    account a;
    int condition;

    must(get_account(s, MALTORHU_GET_KEY, number, &a), "reading the account");
    printf("\nAccount %" PRIu16 " closes\n", a.number);
    condition = delete(s, ACCOUNTS);
    if (condition == MALTORHU_HAS_LINES) {
        printf("  refused, %d: it still has lines\n", condition);
        delete_lines(s, number);
        condition = delete(s, ACCOUNTS);
    }
    must(condition, "deleting the account");
    printf("  account %" PRIu16 " deleted\n", a.number);
}

/* An article goes from its automatic master with its last line. */
static void show_article_gone(session *s, const char *article)
{
    must_be(MALTORHU_NO_RECORD, find_article(s, article),
            "finding an article without lines");
    printf("  %s went with its last line: 17\n", article);
}

/* Serially, by record number: first go back to the set's beginning. */
static void show_accounts(session *s)
{
    account a;
    int condition;

    printf("\nAccounts left\n");
    maltorhu_rewind(s->cursors, ACCOUNTS);
    while ((condition = get_account(s, MALTORHU_GET_NEXT, 0, &a))
           == MALTORHU_DONE)
        show_account(&a, maltorhu_record(s->status));
    must_be(MALTORHU_END_OF_SET, condition, "reading the accounts");
}

int main(void)
{
    session s;

    open_base(&s);
    open_accounts(&s);
    put_prices(&s);
    show_account_chain(&s, 1001, MALTORHU_GET_FORWARD);
    show_account_chain(&s, 1001, MALTORHU_GET_BACK);
    show_article_chain(&s, "FLOUR-25");
    invoice(&s, 1001);
    correct(&s, 1001);
    withdraw(&s, 1001);
    close_account(&s, 1002);
    show_article_gone(&s, "SALT-10");
    show_accounts(&s);
    free(s.area);
    return fflush(stdout) == 0 ? EXIT_SUCCESS : EXIT_FAILURE;
}
