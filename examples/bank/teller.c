/* The bank's work: transfers between accounts, several at a time. The commands are:
 *
 *   bank [FLAG..] run FOLDER SEED [PAGES]   opens the bank and makes transfers; prints a line for each that is durable
 *   bank [FLAG..] show FOLDER               opens the bank, audits its files, and prints what it holds
 *   bank audit FOLDER                       audits the files of a bank that is not open
 *
 * FLAG is --one-sync, --no-sums or --no-pages, as in aries_files.h. The last two are for tests: without a protection a
 * power cut damages the files.
 *
 * An eighth of the pages are accounts, a cell each; the others are the ledger, where each transfer has a cell, by its
 * number. An account that no transfer has changed has no value, and holds OPENING_BALANCE. */
#include "bank.h"

#include <stdio.h>
#include <stdlib.h>
#include <string.h>
#include <unistd.h>

enum {
    OPENING_BALANCE = 1000,
    PAGES = 128,
    STEPS_TO_CHECKPOINT = 100,
    STEPS_TO_ARCHIVE = 700,
    ENTRY = 24,  /* bytes of the numbers of an entry, before its purpose */
    PURPOSE = 24 /* letters of the longest purpose */
};

enum next { NOTHING, WITHDRAW, DEPOSIT, ENTER, FINISH, DECIDE, ROLL_BACK, ACKNOWLEDGE };

struct transfer {
    enum next next;
    uint32_t tx;
    uint64_t before_deposit; /* a savepoint */
    uint64_t number, amount;
    uint32_t from, to;
    char purpose[PURPOSE + 1];
};

struct teller {
    struct bank bank;
    uint64_t random;
    uint32_t accounts, entries;
    uint64_t next_number, last_number;
    struct transfer transfers[TRANSACTIONS];
};

static void need(bool holds, const char *what) {
    if (holds) return;
    perror(what);
    exit(1);
}

/* A number below `count`. (Xorshift: Marsaglia, Journal of Statistical Software 8(14), 2003.) */
static uint64_t draw(struct teller *teller, uint64_t count) {
    teller->random ^= teller->random << 13;
    teller->random ^= teller->random >> 7;
    teller->random ^= teller->random << 17;
    return (teller->random >> 16) % count;
}

/* WHAT CELLS HOLD: numbers, with the most significant byte first, and the letters of a purpose. */

static void put_number(struct aries_image *image, uint64_t number, uint8_t width) {
    for (int shift = 8 * (width - 1); shift >= 0; shift -= 8)
        image->bytes[image->length++] = (uint8_t)(number >> shift);
}

static uint64_t number_at(const struct aries_image *image, size_t offset, size_t width) {
    uint64_t number = 0;
    for (size_t i = 0; i < width; i++) number = number << 8 | image->bytes[offset + i];
    return number;
}

static struct cell cell_at(uint64_t place) {
    return (struct cell){(uint32_t)(place / ARIES_SLOTS), (uint8_t)(place % ARIES_SLOTS)};
}

static struct cell entry_cell(const struct teller *teller, uint64_t number) {
    return cell_at(teller->accounts + number % teller->entries);
}

static uint64_t balance(const struct teller *teller, uint32_t account) {
    const struct aries_image *image = bank_read(&teller->bank, cell_at(account));
    return image->length == ARIES_ABSENT ? OPENING_BALANCE : number_at(image, 0, 8);
}

static bool set_balance(struct teller *teller, struct transfer *transfer, uint32_t account, uint64_t amount) {
    struct aries_image image = {0};
    put_number(&image, amount, 8);
    return bank_update(&teller->bank, transfer->tx, cell_at(account), &image);
}

static bool set_entry(struct teller *teller, struct transfer *transfer) {
    struct aries_image image = {0};
    put_number(&image, transfer->number, 8);
    put_number(&image, transfer->from, 4);
    put_number(&image, transfer->to, 4);
    put_number(&image, transfer->amount, 8);
    for (const char *letter = transfer->purpose; *letter; letter++) image.bytes[image.length++] = (uint8_t)*letter;
    return bank_update(&teller->bank, transfer->tx, entry_cell(teller, transfer->number), &image);
}

/* A TRANSFER, STEP BY STEP */

static void choose_target(struct teller *teller, struct transfer *transfer) {
    uint32_t distance = 1 + (uint32_t)draw(teller, teller->accounts - 1);
    transfer->to = (transfer->from + distance) % teller->accounts;
}

static void begin(struct teller *teller, struct transfer *transfer) {
    size_t letters = 1 + draw(teller, PURPOSE);
    *transfer = (struct transfer){.next = WITHDRAW, .tx = bank_begin(&teller->bank), .number = teller->next_number++};
    transfer->from = (uint32_t)draw(teller, teller->accounts);
    transfer->amount = 1 + draw(teller, 300);
    for (size_t i = 0; i < letters; i++) transfer->purpose[i] = (char)('a' + draw(teller, 26));
    choose_target(teller, transfer);
}

static void give_up(struct teller *teller, struct transfer *transfer) {
    bank_abort(&teller->bank, transfer->tx);
    transfer->next = ROLL_BACK;
}

static void commit(struct teller *teller, struct transfer *transfer) {
    bank_commit(&teller->bank, transfer->tx);
    transfer->next = ACKNOWLEDGE;
}

static void withdraw(struct teller *teller, struct transfer *transfer) {
    uint64_t had = balance(teller, transfer->from);
    bool is_covered = had >= transfer->amount;
    if (is_covered && set_balance(teller, transfer, transfer->from, had - transfer->amount)) transfer->next = DEPOSIT;
    else give_up(teller, transfer);
}

static void deposit(struct teller *teller, struct transfer *transfer) {
    uint64_t had = balance(teller, transfer->to);
    transfer->before_deposit = bank_savepoint(&teller->bank);
    if (set_balance(teller, transfer, transfer->to, had + transfer->amount)) transfer->next = ENTER;
    else give_up(teller, transfer);
}

/* One in eight takes the deposit back, a partial rollback, and makes another. */
static void enter(struct teller *teller, struct transfer *transfer) {
    if (draw(teller, 8) == 0) {
        bank_roll_back_to(&teller->bank, transfer->tx, transfer->before_deposit);
        choose_target(teller, transfer);
        transfer->next = DEPOSIT;
    } else if (set_entry(teller, transfer)) {
        transfer->next = FINISH;
    } else {
        give_up(teller, transfer);
    }
}

static void finish(struct teller *teller, struct transfer *transfer) {
    switch (draw(teller, 16)) {
    case 0:
        give_up(teller, transfer);
        break;
    case 1:
    case 2:
        bank_prepare(&teller->bank, transfer->tx);
        transfer->next = DECIDE;
        break;
    default:
        commit(teller, transfer);
    }
}

static void decide(struct teller *teller, struct transfer *transfer) {
    if (draw(teller, 4) == 0) give_up(teller, transfer);
    else commit(teller, transfer);
}

/* One update at a time, so that other transfers go on between them. */
static void roll_back(struct teller *teller, struct transfer *transfer) {
    if (bank_undo(&teller->bank, transfer->tx)) return;
    bank_end(&teller->bank, transfer->tx);
    transfer->next = NOTHING;
}

static void go_on(struct teller *teller, struct transfer *transfer) {
    switch (transfer->next) {
    case WITHDRAW: withdraw(teller, transfer); break;
    case DEPOSIT: deposit(teller, transfer); break;
    case ENTER: enter(teller, transfer); break;
    case FINISH: finish(teller, transfer); break;
    case DECIDE: decide(teller, transfer); break;
    case ROLL_BACK: roll_back(teller, transfer); break;
    case NOTHING:
    case ACKNOWLEDGE: break;
    }
}

/* One write for the whole line, and only after the sync. */
static void acknowledge(struct transfer *transfer) {
    char line[128];
    int length = snprintf(line, sizeof line, "done %llu %u %u %llu %s\n", (unsigned long long)transfer->number,
        transfer->from, transfer->to, (unsigned long long)transfer->amount, transfer->purpose);
    need(write(STDOUT_FILENO, line, (size_t)length) == length, "acknowledging");
    transfer->next = NOTHING;
}

/* One sync for all transfers that have committed. */
static void acknowledge_all(struct teller *teller) {
    bank_sync(&teller->bank);
    for (size_t i = 0; i < TRANSACTIONS; i++)
        if (teller->transfers[i].next == ACKNOWLEDGE) acknowledge(&teller->transfers[i]);
}

/* THE TELLER'S DAY */

static bool is_idle(const struct teller *teller) {
    for (size_t i = 0; i < TRANSACTIONS; i++)
        if (teller->transfers[i].next != NOTHING) return false;
    return true;
}

/* Pages go to the store in any order, also with what is not committed: here often those that are being changed. */
static void write_some_pages(struct teller *teller) {
    const struct transfer *transfer = &teller->transfers[draw(teller, TRANSACTIONS)];
    uint32_t page = (uint32_t)draw(teller, teller->bank.opened.page_count);
    if (draw(teller, 2) == 0) page = entry_cell(teller, transfer->number).page;
    bank_write_pages(&teller->bank, page, 1 + (uint32_t)draw(teller, PAGES_AT_ONCE));
}

static void archive(struct teller *teller) {
    bank_archive(&teller->bank);
    printf("archived %llu\n", (unsigned long long)teller->bank.opened.base_lsn);
    need(fflush(stdout) == 0, "printing");
}

/* Makes transfers until each cell of the ledger had its turn. */
static void work(struct teller *teller) {
    uint64_t step = 0, archived = 0;
    while (teller->next_number <= teller->last_number || !is_idle(teller)) {
        bool is_archive_due = ++step - archived >= STEPS_TO_ARCHIVE;
        struct transfer *transfer = &teller->transfers[draw(teller, TRANSACTIONS)];
        if (transfer->next != NOTHING) go_on(teller, transfer);
        else if (!is_archive_due && teller->next_number <= teller->last_number) begin(teller, transfer);
        if (draw(teller, 4) == 0) acknowledge_all(teller);
        if (draw(teller, 8) == 0) write_some_pages(teller);
        if (step % STEPS_TO_CHECKPOINT == 0) bank_checkpoint(&teller->bank);
        if (is_archive_due && is_idle(teller)) {
            archive(teller);
            archived = step;
        }
    }
}

static void print_opening(const struct bank *bank) {
    const struct aries_recovered *made = &bank->opened.recovered;
    printf("opened records %llu cut %llu restored %llu redone %llu losers %llu decided %llu\n",
        (unsigned long long)made->records, (unsigned long long)bank->opened.cut,
        (unsigned long long)bank->opened.restored, (unsigned long long)made->redone, (unsigned long long)made->losers,
        (unsigned long long)bank->decided);
    need(fflush(stdout) == 0, "printing");
}

/* One more than the number of the newest transfer in the ledger. */
static uint64_t next_transfer(const struct teller *teller) {
    uint64_t next = 1;
    for (uint64_t entry = 0; entry < teller->entries; entry++) {
        const struct aries_image *image = bank_read(&teller->bank, entry_cell(teller, entry));
        if (image->length != ARIES_ABSENT && number_at(image, 0, 8) >= next) next = number_at(image, 0, 8) + 1;
    }
    return next;
}

static void open_teller(struct teller *teller, const char *folder, uint32_t flags, uint64_t seed, uint32_t page_count) {
    bank_open(&teller->bank, folder, flags, page_count);
    print_opening(&teller->bank);
    uint32_t account_pages = (teller->bank.opened.page_count + 7) / 8;
    teller->random = seed * 2 + 1;
    teller->accounts = account_pages * ARIES_SLOTS;
    teller->entries = (teller->bank.opened.page_count - account_pages) * ARIES_SLOTS;
    teller->next_number = next_transfer(teller);
    teller->last_number = teller->next_number + teller->entries - 1;
}

static void show(const struct teller *teller) {
    printf("entries %u\n", teller->entries);
    for (uint32_t account = 0; account < teller->accounts; account++)
        printf("account %u %llu\n", account, (unsigned long long)balance(teller, account));
    for (uint64_t entry = 0; entry < teller->entries; entry++) {
        const struct aries_image *image = bank_read(&teller->bank, entry_cell(teller, entry));
        if (image->length == ARIES_ABSENT) continue;
        printf("transfer %llu %llu %llu %llu %.*s\n", (unsigned long long)number_at(image, 0, 8),
            (unsigned long long)number_at(image, 8, 4), (unsigned long long)number_at(image, 12, 4),
            (unsigned long long)number_at(image, 16, 8), image->length > ENTRY ? image->length - ENTRY : 0,
            (const char *)image->bytes + ENTRY);
    }
    need(fflush(stdout) == 0, "printing");
}

/* COMMANDS */

static uint32_t flag_of(const char *word) {
    if (strcmp(word, "--one-sync") == 0) return ARIES_FILES_ONE_SYNC;
    if (strcmp(word, "--no-sums") == 0) return ARIES_FILES_NO_SUMS;
    if (strcmp(word, "--no-pages") == 0) return ARIES_FILES_NO_PAGES;
    return 0;
}

int main(int count, char **words) {
    static struct teller teller;
    uint32_t flags = 0;
    for (; count > 1 && flag_of(words[1]) != 0; count--, words++) flags |= flag_of(words[1]);
    bool is_run = (count == 4 || count == 5) && strcmp(words[1], "run") == 0;
    bool is_show = count == 3 && strcmp(words[1], "show") == 0;
    uint32_t page_count = count == 5 ? (uint32_t)strtoul(words[4], NULL, 10) : PAGES;
    if (count == 3 && strcmp(words[1], "audit") == 0) {
        stop_at(audit_folder(words[2]));
        puts("lawful");
        return 0;
    }
    if ((!is_run && !is_show) || page_count < 2) {
        fputs("usage: bank [FLAG..] run FOLDER SEED [PAGES] | bank [FLAG..] show FOLDER | bank audit FOLDER\n"
              "flags: --one-sync, --no-sums, --no-pages\n", stderr);
        return 2;
    }
    open_teller(&teller, words[2], flags, is_run ? strtoull(words[3], NULL, 10) : 0, page_count);
    if (is_show) bank_audit(&teller.bank);
    if (is_show) show(&teller);
    else work(&teller);
    bank_close(&teller.bank);
    return 0;
}
