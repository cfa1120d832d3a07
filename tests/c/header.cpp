// The headers compile as C++17 by themselves and twice, with C names, and declare the functions as they are called.
#include "flailreeve_pool.h"
#include "flailreeve.h"
#include "flailreeve_pool.h"
#include "flailreeve.h"

#include <type_traits>

using links_t = uint16_t;
using values_t = uint64_t;
using book_t = flailreeve_book;
using place_t = flailreeve_place;
using half = uint16_t;
using size = size_t;

using setup_t = half(links_t *, size, values_t *, size, half, const half *, const half *, book_t *);
using check_t = half(const links_t *, size, const values_t *, size, const book_t *, place_t *);
using length_t = half(const links_t *, size, const values_t *, size, const book_t *, half, half *, place_t *);
using push_t = half(links_t *, size, values_t *, size, book_t *, half, uint64_t, place_t *);
using pop_t = half(links_t *, size, values_t *, size, book_t *, half, uint64_t *, place_t *);
using quick_push_t = half(links_t *, size, values_t *, size, book_t *, half, uint64_t);
using quick_pop_t = half(links_t *, size, values_t *, size, book_t *, half, uint64_t *);
using read_t = half(const links_t *, size, const values_t *, size, const book_t *, half, uint64_t *, size, size, half *,
                    place_t *);
using clear_t = half(links_t *, size, values_t *, size, book_t *, half, place_t *);

[[maybe_unused]] static setup_t *const setup_is = flailreeve_setup;
[[maybe_unused]] static check_t *const check_is = flailreeve_check;
[[maybe_unused]] static length_t *const length_is = flailreeve_length;
[[maybe_unused]] static push_t *const push_back_is = flailreeve_push_back;
[[maybe_unused]] static push_t *const push_front_is = flailreeve_push_front;
[[maybe_unused]] static pop_t *const pop_back_is = flailreeve_pop_back;
[[maybe_unused]] static pop_t *const pop_front_is = flailreeve_pop_front;
[[maybe_unused]] static read_t *const read_forward_is = flailreeve_read_forward;
[[maybe_unused]] static read_t *const read_backward_is = flailreeve_read_backward;
[[maybe_unused]] static clear_t *const clear_is = flailreeve_clear;
[[maybe_unused]] static quick_push_t *const quick_push_back_is = flailreeve_quick_push_back;
[[maybe_unused]] static quick_push_t *const quick_push_front_is = flailreeve_quick_push_front;
[[maybe_unused]] static quick_pop_t *const quick_pop_back_is = flailreeve_quick_pop_back;
[[maybe_unused]] static quick_pop_t *const quick_pop_front_is = flailreeve_quick_pop_front;
using version_t = half();
using text_t = size(half, uint8_t *, size);
[[maybe_unused]] static version_t *const version_is = flailreeve_version;
[[maybe_unused]] static text_t *const text_is = flailreeve_text;
static_assert(std::is_standard_layout<book_t>::value && std::is_trivially_copyable<book_t>::value, "the book is plain data");
static_assert(std::is_standard_layout<place_t>::value && std::is_trivially_copyable<place_t>::value, "the place is plain data");
