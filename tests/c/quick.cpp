// The quick calls of a library, by way of include/flailreeve.h, on any memory: cases by hand on each side of every test, sound pools
// beside the checked calls, damaged and random ones, every tiny pool; held against quick.hpp's reading of 02 d). Fixed seeds; it ends with
// how often each number, and each reason for 17, was met.
#include <cstdlib>
#include <ctime>

#include "damage.hpp"
#include "quickhand.hpp"
#include "quicktiny.hpp"

static Ground ground;

static constexpr model::Call four[] = {model::quick_push_back, model::quick_push_front, model::quick_pop_back, model::quick_pop_front};

// One quick call on any memory, against the reading.
static void make(const model::Ask &ask, const model::Memory &m, bool locked)
{
    model::Memory want = m;
    unsigned why = 0;
    std::uint16_t number = quick::answer(ask, want, &why);
    ground.run(ask, m, want, number, locked);
    reasons::note(ask.call, number, why);
}

// All four on one list of any memory; the lent buffers lie at each of the spots in turn.
static void all_four(Dice &dice, model::Memory &m, std::uint16_t list)
{
    static unsigned long turn;
    for (model::Call call : four) {
        model::Ask ask;
        ask.call = call;
        ask.list = list;
        ask.value = dice.value();
        m.word = dice.word() | 1;
        ground.spot = static_cast<Spot>(turn % 3);
        make(ask, m, turn % 7 == 0);
        turn++;
    }
}

static void by_hand()
{
    QuickByHand hand;
    hand.all();
    std::printf("  %lu calls on pools made by hand, each with its number\n", hand.cases);
}

// A sound pool through a checked call and through its quick one: what each hands out and leaves is the same to the byte. The model has no
// part in it.
static unsigned long beside_checked(const model::Memory &m, const model::Ask &checked)
{
    static Ground one, other;
    model::Memory left = m, quick_left = m;
    model::Ask ask = checked;
    std::uint16_t number = one.only(ask, m), quick_number;
    one.left(left);
    ask.call = model::quick_of(ask.call);
    quick_number = other.only(ask, m);
    other.left(quick_left);
    if (number != quick_number)
        fail("%s gave %u on a sound pool of %zu slots, and %s %u", model::names[checked.call], number, m.links.size(),
             model::names[ask.call], quick_number);
    if (left.links != quick_left.links || left.values != quick_left.values ||
        std::memcmp(&left.book, &quick_left.book, sizeof left.book) != 0)
        fail("%s left another pool than %s", model::names[ask.call], model::names[checked.call]);
    if (model::pops(ask.call) && left.word != quick_left.word)
        fail("%s handed out another value than %s", model::names[ask.call], model::names[checked.call]);
    return 1;
}

static void sound()
{
    Dice dice(11);
    model::Memory m;
    unsigned long pairs = 0, pools = 0;
    for (; pools < 4000; pools++) {
        std::size_t n = pools % 40 == 0 ? dice.from(65, 4096) : dice.from(2, pools % 3 == 0 ? 64 : 9);
        model::Queues q = model::random_queues(dice, n);
        model::write_down(q, m);
        for (model::Call call : {model::push_back, model::push_front, model::pop_back, model::pop_front}) {
            model::Ask ask;
            ask.call = call;
            ask.list = model::random_list(dice, q.list.size());
            ask.value = dice.value();
            m.word = dice.word();
            pairs += beside_checked(m, ask);
            all_four(dice, m, ask.list);
        }
    }
    std::printf("  %lu sound pools, %lu quick calls beside the checked one\n", pools, pairs);
}

// A word that a quick call may look at: of the book's head, tail and counts of a list, the free record, a link of an end.
static std::uint16_t *near_word(Dice &dice, model::Memory &m)
{
    flailreeve_list &entry = m.book.list[dice.from(0, m.book.lists == 0 || m.book.lists > 8 ? 7 : m.book.lists - 1u)];
    std::uint16_t *const words[] = {&entry.head,      &entry.tail,           &entry.length,         &entry.limit,   &entry.share,
                                    &m.book.free_head, &m.book.free_count,    &m.book.free_count,    &entry.length, &m.book.lists,
                                    &m.links[entry.head % m.links.size()],    &m.links[entry.tail % m.links.size()],
                                    &m.links[m.book.free_head % m.links.size()]};
    return dice.one_of(words);
}

// What a word is changed to: near the edges of what is allowed, or to what another word holds.
static std::uint16_t strange_word(Dice &dice, model::Memory &m, std::uint16_t kept)
{
    const std::size_t n = m.links.size(), last = n + model::book_words - 1;
    const std::size_t choices[] = {0, 1, n - 2, n - 1, n, n + 1, kept + 1u, kept - 1u, kept ^ 256u, kept ^ 32768u, 65535,
                                   dice.from(0, n), dice.from(0, 65535), *word_of(m, dice.from(0, last)), *near_word(dice, m)};
    return static_cast<std::uint16_t>(dice.one_of(choices));
}

// Sound pools in which one to four words were changed, most of them near an end, and some values.
static void damage()
{
    Dice dice(12);
    unsigned long pools = 0;
    for (; pools < 150000; pools++) {
        std::size_t n = pools % 200 == 0 ? dice.from(65, 4096) : dice.from(2, pools % 3 == 0 ? 64 : 9);
        model::Queues q = model::random_queues(dice, n);
        model::Memory m;
        model::write_down(q, m);
        for (std::size_t left = dice.from(1, 4); left > 0; left--) {
            std::uint16_t *word = dice.one_in(4) ? word_of(m, dice.from(0, n + model::book_words - 1)) : near_word(dice, m);
            *word = strange_word(dice, m, *word);
            if (dice.one_in(4))
                m.values[dice.from(0, n - 1)] = dice.value();
        }
        all_four(dice, m, model::random_list(dice, q.list.size()));
    }
    std::printf("  %lu damaged pools, four calls on each\n", pools);
}

// Links, values and book that were never a pool's: words below N or so, or any words.
static void nothing_sound()
{
    Dice dice(13);
    unsigned long pools = 0;
    for (; pools < 100000; pools++) {
        std::size_t n = pools % 200 == 0 ? dice.from(65, 4096) : dice.from(2, pools % 3 == 0 ? 64 : 9);
        const std::size_t most = dice.one_in(8) ? 65535 : dice.one_in(2) ? n : n - 1;
        model::Memory m;
        m.links.resize(n);
        m.values.resize(n);
        for (std::size_t at = 0; at < n + model::book_words; at++)
            *word_of(m, at) = dice.half(0, most);
        for (std::uint64_t &value : m.values)
            value = dice.value();
        if (!dice.one_in(8))
            m.book.lists = dice.half(1, 8);
        // A share or limit that is too large is as good as any.
        if (dice.one_in(2))
            m.book.list[dice.from(0, 7)].share = dice.half(0, 65535);
        if (dice.one_in(2))
            m.book.list[dice.from(0, 7)].limit = dice.half(0, 65535);
        all_four(dice, m, model::random_list(dice, std::min<std::size_t>(m.book.lists, 8)));
    }
    std::printf("  %lu pools of random words, four calls on each\n", pools);
}

// Buffers of every two lengths, with a book that is sound for one of them or has no list: the sizes come first.
static void lengths()
{
    Dice dice(14);
    const std::size_t choices[] = {0, 1, 2, 3, 6, 7, 4095, 4096, 4097, 4100};
    unsigned pairs = 0;
    for (std::size_t links : choices)
        for (std::size_t values : choices) {
            model::Memory m;
            model::write_down(model::random_queues(dice, std::min<std::size_t>(std::max<std::size_t>(links, 2), 4096)), m);
            m.links.resize(links, 0);
            m.values.resize(values, 0);
            all_four(dice, m, 0);
            all_four(dice, m, 8);
            m.book.lists = dice.one_in(2) ? 0 : 9;
            all_four(dice, m, 0);
            pairs++;
        }
    std::printf("  %u pairs of lengths\n", pairs);
}

static void tiny()
{
    QuickTiny tiny;
    for (std::size_t n : {2, 3})
        for (std::uint16_t lists : {0, 1, 2, 9}) {
            tiny.all(n, lists, 0, lists == 0 || lists == 9 ? 7 : 1);
            tiny.all(n, lists, 1, lists == 2 ? 1 : 7);
            tiny.all(n, lists, lists, 11);
        }
    tiny.all(4, 1, 0, 1);
    for (std::uint16_t list : {0, 1})
        tiny.all(4, 2, list, 43);
    std::printf("  %lu pools of 2, 3 and 4 slots, four calls on each\n", tiny.pools);
}

int main(int argc, char **argv)
{
    const struct {
        const char *name;
        void (*run)();
    } stages[] = {{"by hand", by_hand}, {"lengths", lengths}, {"sound", sound}, {"damage", damage},
                  {"random", nothing_sound}, {"tiny", tiny}};
    bool only = argc > 1;
    catch_faults();
    for (const auto &stage : stages) {
        if (only && std::strcmp(argv[1], stage.name) != 0)
            continue;
        std::clock_t from = std::clock();
        std::snprintf(doing, sizeof doing, "quick calls, %s", stage.name);
        std::printf("quick calls, %s\n", stage.name);
        stage.run();
        if (std::getenv("TESTS_C_TIMES") != nullptr)
            std::printf("  %.1f s\n", double(std::clock() - from) / CLOCKS_PER_SEC);
        std::fflush(stdout);
    }
    std::snprintf(doing, sizeof doing, "the numbers of the quick calls");
    if (!only)
        reasons::hold();
    std::printf("%lu calls, %lu cells compared, %lu calls on memory that cannot be written\n", made, cells_compared, never_written);
    return 0;
}
