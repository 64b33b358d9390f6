/* Tables, alike lists, their images and their refusals, written from the documents and not from the library. */
#include "check.h"

#include <string.h>

struct table table_new(uint32_t jobs)
{
    struct table t;
    memset(&t, 0, sizeof t);
    t.jobs = jobs;
    return t;
}

void add_rule(struct table *t, int job, int move, int after, int a, int b, int c, int d)
{
    const int place[8] = { job, move % 256, after, a, b, c, d, move / 256 };
    for (int i = 0; i < 8; i++)
        t->bytes[8 * t->rules + (size_t)i] = (uint8_t)place[i];
    t->rules++;
}

void rule0(struct table *t, int job, int move)
{
    add_rule(t, job, move, 0, 0, 0, 0, 0);
}

void rule1(struct table *t, int job, int move, int a)
{
    add_rule(t, job, move, 1, a, 0, 0, 0);
}

void rule2(struct table *t, int job, int move, int a, int b)
{
    add_rule(t, job, move, 2, a, b, 0, 0);
}

int move_of(const uint8_t *rule)
{
    return rule[1] + 256 * rule[7];
}

size_t rule_bytes(const struct table *t)
{
    return 8 * t->rules;
}

void seal(uint8_t *block)
{
    uint32_t sum = 0;
    for (int i = 0; i < 510; i++)
        sum += block[i];
    sum %= 65521;
    block[510] = (uint8_t)(sum & 255);
    block[511] = (uint8_t)(sum >> 8);
}

size_t image_of(const struct table *t, uint8_t *image)
{
    size_t blocks = (t->rules + 62) / 63;
    for (size_t k = 0; k < blocks; k++) {
        uint8_t *block = image + 512 * k;
        size_t here = t->rules - 63 * k < 63 ? t->rules - 63 * k : 63;
        memset(block, 0, 512);
        block[0] = (uint8_t)t->jobs;
        block[1] = (uint8_t)here;
        memcpy(block + 2, t->bytes + 504 * k, 8 * here);
        block[506] = (uint8_t)k;
        block[508] = (uint8_t)blocks;
        seal(block);
    }
    return 512 * blocks;
}

size_t plan_of(const char *text, uint8_t *plan)
{
    size_t n = strlen(text);
    for (size_t i = 0; i < n; i++)
        plan[i] = (uint8_t)(text[i] - 'A');
    return n;
}

struct table table_t(void)
{
    struct table t = table_new(4);
    rule0(&t, 0, 'a');
    rule1(&t, 1, 'a', 0);
    rule1(&t, 2, 'a', 1);
    rule1(&t, 3, 'b', 0);
    return t;
}

struct table table_s(void)
{
    struct table t = table_new(5);
    rule1(&t, 0, 'a', 1);
    rule0(&t, 1, 'b');
    rule0(&t, 1, 'c');
    rule1(&t, 2, 'a', 3);
    rule1(&t, 2, 'a', 4);
    rule0(&t, 3, 'b');
    rule0(&t, 4, 'c');
    return t;
}

struct table table_xyz(void)
{
    struct table t = table_new(3);
    rule1(&t, 0, 'a', 1);
    rule2(&t, 1, 'a', 1, 2);
    rule0(&t, 1, 'b');
    rule0(&t, 2, 'b');
    return t;
}

struct table table_doubling(int n)
{
    struct table t = table_new((uint32_t)n);
    rule0(&t, 0, 'a');
    for (int k = 1; k < n; k++)
        rule2(&t, k, 'a', k - 1, k - 1);
    return t;
}

struct table table_full(int rules)
{
    struct table t = table_new(24);
    rule0(&t, 0, 'a');
    for (int k = 1; k < 24; k++)
        rule1(&t, k, 'a', k - 1);
    for (int i = 24; i < rules; i++)
        add_rule(&t, i % 24, 1000 * i % 65536, i % 5, i % 5 > 0 ? i % 7 : 0, i % 5 > 1 ? i % 11 : 0, i % 5 > 2 ? i % 13 : 0, i % 5 > 3 ? i % 24 : 0);
    return t;
}

struct table table_repeated(void)
{
    struct table t = table_new(1);
    for (int i = 0; i < 252; i++)
        add_rule(&t, 0, i % 84 / 4 * 513, i % 4, 0, 0, 0, 0);
    return t;
}

struct table table_edges(void)
{
    static const int edges[EDGES] = { 0, 255, 256, 65535, 'a', 'a' + 256 };
    struct table t = table_new(EDGES);
    for (int k = 0; k < EDGES; k++)
        rule0(&t, k, edges[k]);
    return t;
}

struct table table_letters(uint32_t jobs, int letters)
{
    struct table t = table_new(jobs);
    for (int j = 0; j < letters; j++)
        rule0(&t, j, 'a' + j);
    return t;
}

struct table shuffled(const struct table *t, size_t rules)
{
    struct table other = *t;
    while (other.rules < rules)
        memcpy(other.bytes + 8 * other.rules++, t->bytes + 8 * random_below((uint32_t)t->rules), 8);
    for (size_t i = other.rules - 1; i > 0; i--) {
        uint8_t place[8], *a = other.bytes + 8 * i, *b = other.bytes + 8 * random_below((uint32_t)i + 1);
        memcpy(place, a, 8);
        memcpy(a, b, 8);
        memcpy(b, place, 8);
    }
    return other;
}

void add_renumbered(struct table *other, const struct table *t, const uint8_t *number)
{
    for (const uint8_t *r = t->bytes; r < t->bytes + rule_bytes(t); r += 8) {
        uint8_t row[4] = { 0 };
        for (int k = 0; k < r[2]; k++)
            row[k] = number[r[3 + k]];
        add_rule(other, number[r[0]], move_of(r), r[2], row[0], row[1], row[2], row[3]);
    }
}

void random_numbers(uint8_t *number, uint32_t jobs)
{
    for (uint32_t i = 0; i < jobs; i++) {
        uint32_t k = random_below(i + 1);
        number[i] = number[k];
        number[k] = (uint8_t)i;
    }
}

/* ---- random tables and plans */

static const int moves[MOVES] = { 0, 255, 256, 65535, 'a', 'a' + 256, 'b', 'a' + 512 };

int random_move(uint32_t used)
{
    return moves[random_below(used)];
}

/* The first rule of each job leads to lower ones only, so that every job can finish. */
struct table random_table(uint32_t jobs)
{
    struct table t = table_new(jobs);
    uint32_t used = 2 + random_below(MOVES - 1), extra = random_below(2 * jobs + 1);
    for (uint32_t j = 0; j < jobs + extra; j++) {
        uint32_t job = j < jobs ? j : random_below(jobs), below = j < jobs ? j : jobs;
        int row[2] = { 0, 0 }, after = below == 0 ? 0 : (int)random_below(3);
        for (int i = 0; i < after; i++)
            row[i] = (int)random_below(below);
        add_rule(&t, (int)job, random_move(used), after, row[0], row[1], 0, 0);
    }
    return t;
}

struct table some_table(int which)
{
    switch (which) {
    case 0: return table_t();
    case 1: return table_s();
    case 2: return table_xyz();
    case 3: return table_doubling(5);
    case 4: return table_full(40);
    case 5: return table_full(252);
    case 6: return table_repeated();
    case 7: return table_edges();
    default: return random_table(1 + random_below(6));
    }
}

size_t random_plan(uint8_t *plan, uint32_t jobs, uint32_t longest)
{
    size_t n = random_below(longest + 1);
    for (size_t i = 0; i < n; i++)
        plan[i] = (uint8_t)random_below(jobs);
    return n;
}

size_t all_plans(uint32_t jobs, uint8_t plans[ALL_PLANS][ALL_LONGEST], size_t *lens)
{
    size_t count = 1;
    lens[0] = 0;
    for (size_t i = 0; i < count; i++)
        for (uint8_t j = 0; j < jobs && lens[i] < ALL_LONGEST && count < ALL_PLANS; j++) {
            memcpy(plans[count], plans[i], ALL_LONGEST);
            plans[count][lens[i]] = j;
            lens[count++] = lens[i] + 1;
        }
    return count;
}

/* ---- the image and the alike list in force */

uint8_t image[2560], list[4 * (PAIRS + 8)];
size_t image_len, list_len;

void use(const struct table *t)
{
    image_len = image_of(t, image);
    list_len = 0;
}

struct table table_of_image(const uint8_t *image, size_t len)
{
    struct table t = table_new(image[0]);
    for (const uint8_t *block = image; block < image + len; block += 512) {
        memcpy(t.bytes + 8 * t.rules, block + 2, 8 * block[1]);
        t.rules += block[1];
    }
    return t;
}

struct table table_in_force(void)
{
    return table_of_image(image, image_len);
}

void put_pair(size_t k, int from, int to)
{
    const int pair[4] = { from % 256, from / 256, to % 256, to / 256 };
    for (size_t i = 0; i < 4; i++)
        list[4 * k + i] = (uint8_t)pair[i];
}

void add_pair(int from, int to)
{
    put_pair(list_len / 4, from, to);
    list_len += 4;
}

int from_of(size_t k)
{
    return list[4 * k] + 256 * list[4 * k + 1];
}

int to_of(size_t k)
{
    return list[4 * k + 2] + 256 * list[4 * k + 3];
}

void alike(const char *text)
{
    list_len = 0;
    for (; *text != 0; text += 2)
        add_pair(text[0], text[1]);
}

void fill_list(size_t pairs)
{
    list_len = 0;
    for (size_t k = 0; k < pairs; k++)
        add_pair(1001 + 4 * (int)k, 2001 + (int)k % 5);
}

void shuffle_pairs(void)
{
    for (size_t k = list_len / 4; k > 1; k--) {
        size_t other = random_below((uint32_t)k);
        int from = from_of(k - 1), to = to_of(k - 1);
        put_pair(k - 1, from_of(other), to_of(other));
        put_pair(other, from, to);
    }
}

/* Some of the moves count as others, which then stay; pairs of moves that no rule makes stand between them. */
void random_list(void)
{
    int order[MOVES];
    size_t froms = random_below(MOVES);
    fill_list(random_below(3) == 0 ? random_below(PAIRS + 1 - MOVES) : 0);
    memcpy(order, moves, sizeof moves);
    for (size_t i = MOVES; i > 1; i--) {
        size_t other = random_below((uint32_t)i);
        int move = order[i - 1];
        order[i - 1] = order[other];
        order[other] = move;
    }
    for (size_t i = 0; i < froms; i++)
        add_pair(order[i], order[froms + random_below((uint32_t)(MOVES - froms))]);
    shuffle_pairs();
    CHECK_EQ(refusal_of_pairs(), 0);
}

void list_of_any_bytes(void)
{
    list_len = random_below(4) == 0 ? random_below(sizeof list) : 4 * random_below(PAIRS + 2);
    uint32_t spread = 1 + random_below(256);
    for (size_t i = 0; i < list_len; i++)
        list[i] = (uint8_t)random_below(spread);
}

void damage_image(void)
{
    uint8_t *block = image + 512 * random_below((uint32_t)(image_len / 512));
    if (random_below(3) == 0)
        block[random_below(512)] = (uint8_t)random_below(70);
    if (random_below(4) != 0)
        seal(block);
}

int counted(int move)
{
    for (size_t k = 0; k < list_len / 4; k++)
        if (from_of(k) == move)
            return to_of(k);
    return move;
}

struct table replaced(const struct table *t)
{
    struct table u = *t;
    for (size_t r = 0; r < u.rules; r++) {
        uint8_t *rule = u.bytes + 8 * r;
        int move = counted(move_of(rule));
        rule[1] = (uint8_t)(move % 256);
        rule[7] = (uint8_t)(move / 256);
    }
    return u;
}

int32_t of_two(call_of_two *call, const uint8_t *first, size_t m, const uint8_t *second, size_t n, size_t space_len)
{
    struct area areas[] = { area_copy(image, image_len), area_copy(list, list_len), area_copy(first, m), area_copy(second, n) };
    struct area space = area_new(space_len);
    int32_t got = call(areas[0].bytes, areas[0].len, areas[1].bytes, areas[1].len, areas[2].bytes, areas[2].len,
                       areas[3].bytes, areas[3].len, space.bytes, space.len);
    areas_end(areas, 4);
    space_left(&space, got);
    area_free(&space);
    return got;
}

/* ---- refusals */

/* Byte 7 is the high byte of the move and may be anything. */
static int bad_place(uint32_t jobs, const uint8_t *p)
{
    if (p[0] >= jobs || p[2] > 4)
        return 1;
    for (int i = 0; i < 4; i++)
        if (i < p[2] ? p[3 + i] >= jobs : p[3 + i] != 0)
            return 1;
    return 0;
}

/* 6 and 7: norms by taking, again and again, any job whose norm a rule lowers. */
static int refusal_of_norms(uint32_t jobs, const uint8_t *rules, size_t count)
{
    const uint64_t none = UINT64_MAX;
    uint64_t norm[24];
    int high = 0;
    for (uint32_t j = 0; j < 24; j++)
        norm[j] = none;
    for (int again = 1; again;) {
        again = 0;
        for (size_t r = 0; r < count; r++) {
            const uint8_t *p = rules + 8 * r;
            uint64_t n = 1;
            for (int i = 0; i < p[2] && n != none; i++)
                n = norm[p[3 + i]] == none ? none : n + norm[p[3 + i]];
            if (n < norm[p[0]]) {
                norm[p[0]] = n;
                again = 1;
            }
        }
    }
    for (uint32_t j = 0; j < jobs; j++) {
        if (norm[j] == none)
            return 6;
        high |= norm[j] > 512;
    }
    return high ? 7 : 0;
}

int refusal_of_list(uint32_t jobs, const uint8_t *rules, size_t len)
{
    if (len % 8 != 0 || len < 8 || len > 2016)
        return 2;
    if (jobs < 1 || jobs > 24)
        return 4;
    for (size_t i = 0; i < len; i += 8)
        if (bad_place(jobs, rules + i))
            return 5;
    return refusal_of_norms(jobs, rules, len / 8);
}

static int bad_header(const uint8_t *image, size_t k, size_t blocks)
{
    const uint8_t *b = image + 512 * k;
    int last = k + 1 == blocks;
    return b[0] < 1 || b[0] > 24 || b[0] != image[0] || b[1] > 63 || (last ? b[1] < 1 : b[1] != 63)
        || b[506] + 256u * b[507] != k || b[508] + 256u * b[509] != blocks;
}

int refusal_of_image(const uint8_t *image, size_t len)
{
    size_t blocks = len / 512;
    uint8_t rules[2016];
    size_t count = 0;
    if (len != 512 && len != 1024 && len != 1536 && len != 2048)
        return 2;
    for (size_t k = 0; k < blocks; k++) {
        uint8_t block[512];
        memcpy(block, image + 512 * k, 512);
        seal(block);
        if (memcmp(block, image + 512 * k, 512) != 0)
            return 3;
    }
    for (size_t k = 0; k < blocks; k++)
        if (bad_header(image, k, blocks))
            return 4;
    for (size_t k = 0; k < blocks; k++) {
        const uint8_t *b = image + 512 * k;
        for (size_t i = 0; i < 63; i++) {
            const uint8_t *p = b + 2 + 8 * i;
            static const uint8_t zeros[8];
            if (i < b[1] ? bad_place(image[0], p) : memcmp(p, zeros, 8) != 0)
                return 5;
            if (i < b[1])
                memcpy(rules + 8 * count++, p, 8);
        }
    }
    return refusal_of_norms(image[0], rules, count);
}

int refusal_of_pairs(void)
{
    if (list_len > 128 || list_len % 4 != 0)
        return 12;
    for (size_t i = 0; i < list_len / 4; i++)
        for (size_t j = 0; j < list_len / 4; j++)
            if ((i != j && from_of(i) == from_of(j)) || from_of(i) == to_of(j))
                return 13;
    return 0;
}

int refusal_in_force(void)
{
    int refusal = refusal_of_image(image, image_len);
    return refusal != 0 ? refusal : refusal_of_pairs();
}

void use_with(struct table t, int set)
{
    if (set >> 6 & 1)
        t.jobs++;
    if (set >> 5 & 1)
        t.bytes[2] = 5;
    use(&t);
    if (set >> 4 & 1)
        image[506] = 1;
    seal(image);
    if (set >> 3 & 1)
        image[511] ^= 1;
    if (set >> 2 & 1)
        image_len--;
}

void use_image_with(int set)
{
    use_with(table_doubling(set >> 7 & 1 ? 10 : 9), set);
}

void use_image_refused(int refusal)
{
    use_image_with(1 << refusal);
    CHECK_EQ(refusal_of_image(image, image_len), refusal);
}

int first_refusal(int image_refusal, int set)
{
    return set & SHORT_SPACE ? 1 : image_refusal != 0 ? image_refusal : set & (HALF_PAIR | MANY_PAIRS) ? 12
         : set & CLASH ? 13 : set & NO_JOB ? 8 : set & HIGH_NORM ? 9 : 0;
}

int of_two_or_fewer(int set)
{
    set &= set - 1;
    return (set & (set - 1)) == 0;
}

void list_with(int set)
{
    fill_list(set & MANY_PAIRS ? PAIRS + 1 : 2);
    if (set & CLASH)
        put_pair(1, from_of(0), to_of(0));
    if (set & HALF_PAIR)
        list_len -= 2;
}

void every_defect(int sets, void (*answered)(int refusal, int set))
{
    for (int refusal = 0; refusal < 8; refusal++) {
        if (refusal == 1)
            continue;
        use_image_refused(refusal);
        for (int set = 0; set < sets; set++)
            if (!small_run() || (of_two_or_fewer(set) && (refusal < 3 || refusal == 7)))
                answered(refusal, set);
    }
}

void every_image(void (*answered)(int refusal))
{
    for (int set = 4; set < 256; set += 4) {
        int refusal = 2;
        while ((set >> refusal & 1) == 0)
            refusal++;
        use_image_with(set);
        CHECK_EQ(refusal_of_image(image, image_len), refusal);
        answered(refusal);
    }
}
