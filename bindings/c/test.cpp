/* Tests of mysql_params.hpp: the cases of bindings/cases, what each value is bound as, what is thrown, who owns what. */
#include "cases.h"
#include "mysql_params.hpp"

#include <cstdio>
#include <string>

/* While it is true, `malloc` gives no memory. The linker replaces the functions in all objects that are linked. */
static bool refuses_memory;

extern "C" void *__real_malloc(std::size_t len);
extern "C" void *__wrap_malloc(std::size_t len);
extern "C" void *__wrap_malloc(std::size_t len)
{
    return refuses_memory ? nullptr : __real_malloc(len);
}

using namespace std::literals;
using mysql_params::bind;
using mysql_params::Error;
using mysql_params::Form;
using mysql_params::Mode;
using mysql_params::RowError;
using mysql_params::Template;
using mysql_params::Value;

static int failures;

static void same(const std::string &got, std::string_view wanted)
{
    if (got == wanted)
        return;
    std::printf("    got %s, wanted %.*s\n", got.c_str(), static_cast<int>(wanted.size()), wanted.data());
    failures++;
}

static void expect(bool holds, const char *what)
{
    if (holds)
        return;
    std::printf("    not so: %s\n", what);
    failures++;
}

/* What a call throws, as text: of a refusal its number and its message. */
template <typename Call> static std::string thrown(Call call)
{
    try {
        call();
    } catch (const Error &error) {
        return std::to_string(error.number()) + " " + error.what();
    } catch (const std::invalid_argument &) {
        return "invalid argument";
    }
    return "nothing";
}

static_assert(std::is_constructible_v<Value, double> && std::is_constructible_v<Value, float>);
static_assert(!std::is_constructible_v<Value, long double>);
static_assert(!std::is_constructible_v<Value, char> && !std::is_constructible_v<Value, void *>);
static_assert(!std::is_constructible_v<Value, wchar_t> && !std::is_constructible_v<Value, decltype(u8'a')>);
static_assert(!std::is_constructible_v<Value, char16_t> && !std::is_constructible_v<Value, char32_t>);
static_assert(!std::is_copy_constructible_v<Form> && std::is_nothrow_move_constructible_v<Form>);
static_assert(!std::is_copy_constructible_v<Template> && !std::is_copy_assignable_v<Template>);
static_assert(std::is_nothrow_move_constructible_v<Template> && std::is_nothrow_move_assignable_v<Template>);
static_assert(std::is_nothrow_copy_constructible_v<RowError>);

/* Whether a member of Form can be called so. */
#define CAN_CALL(...) is_callable([](auto &form) -> decltype(form.__VA_ARGS__, void()) {})

template <typename Call> static constexpr bool is_callable(Call)
{
    return std::is_invocable_v<Call, Form &>;
}

static_assert(CAN_CALL(append_qualified("a", {"t", "b"})) && CAN_CALL(append_identifiers("a", {{"t", "b"}})));
static_assert(CAN_CALL(append_identifier("a", {"t"})) && CAN_CALL(append_decimal("a", {"1.5"})));
static_assert(CAN_CALL(append_assignments("a", {{{"t", "b"}, 1}})));
/* A brace too many would make a string of the bytes from one pointer to the other. */
static_assert(!CAN_CALL(append_qualified("a", {{"t", "b"}})) && !CAN_CALL(append_identifiers("a", {{{"t", "b"}}})));
static_assert(!CAN_CALL(append_identifiers("a", {"x", {{"t", "b"}}})));
static_assert(!CAN_CALL(append_identifier("a", {"t", "b"})) && !CAN_CALL(append_identifier("a", {{"t", "b"}})));
static_assert(!CAN_CALL(append_decimal("a", {"1.5", "2"})) && !CAN_CALL(append_decimal("a", {{"1.5", "2"}})));
static_assert(!CAN_CALL(append_assignments("a", {{{{"t", "b"}}, 1}})));
static_assert(!CAN_CALL(append("a", {"t", "b"})) && !CAN_CALL(append("a", {{"t", "b"}})));

static void values()
{
    same(bind("?, ?, ?", {42, -1, true}), "42, -1, 1");
    same(bind("?, ?", {std::numeric_limits<std::int64_t>::min(), std::numeric_limits<std::uint64_t>::max()}),
         "-9223372036854775808, 18446744073709551615");
    same(bind("?, ?, ?", {"it's", "a\0b"sv, std::string("\\")}), "'it\\'s', 'a\\0b', '\\\\'");
    same(bind("?, ?", {nullptr, std::optional<int>()}), "NULL, NULL");
    same(bind("?, ?", {std::optional<std::string>("x"), std::optional<unsigned>(7U)}), "'x', 7");
    same(bind("?", {std::vector<std::uint8_t>{0xFF, 0}}), "0xFF00");
    same(bind("?", {mysql_params_date{2019, 11, 27, 12, 30, 0, 5}}), "'2019-11-27 12:30:00.000005'");
    same(bind("?", {mysql_params_time{true, 1, 2, 3, 4, 0}}), "'-026:03:04'");
}

static void named_and_without()
{
    const std::string name = "x' OR '1'='1";
    same(bind("SELECT * FROM t WHERE id = :id AND name = :name", {{"id", 42}, {"name", name}}),
         "SELECT * FROM t WHERE id = 42 AND name = 'x\\' OR \\'1\\'=\\'1'");
    same(bind(":a", {{"a", "b"}}), "'b'");
    same(bind(":a, :b", {{"a", "b"}, {"b", "d"}}), "'b', 'd'");
    same(bind("SELECT 1"), "SELECT 1");
    same(bind(""), "");
    same(bind(":a", {{"a", "\\'"}}, Mode::no_backslash_escapes), "'\\'''");
}

static void forms()
{
    Form form;
    for (int i = 0; i < 1000; i++)
        form.append("n" + std::to_string(i), std::string(100, 'x'));
    Form other(std::move(form));
    expect(form.get().len == 0, "what was moved is empty");
    expect(bind(":n999", other).size() == 102, "the name is bound");
    form.append("a", 1);
    same(bind(":a", form), "1");
    form = std::move(other);
    expect(bind(":n0", form).size() == 102, "the name is bound after a move");
    const std::string quotes(100000, '\'');
    expect(bind("?", {quotes}).size() == 200002, "a long text is bound");
}

static void refusals()
{
    same(thrown([] { bind(":a ?"); }), "8 Named and positional params in one query");
    same(thrown([] { bind("SELECT :userId", {{"userID", 1}}); }), "9 Missing named parameter `userId` for statement");
    same(thrown([] { bind("SELECT :na\xC3\xAFve", {{"a", 1}}); }),
         "9 Missing named parameter `na` for statement: names are of ASCII letters, digits and _, so `:na\\xc3\\xafve` ends "
         "after `na`");
    same(thrown([] { bind(":a", {{"a", 1}, {"a", 2}}); }), "7 Redefinition of named parameter `a'");
    same(thrown([] { bind("?", {1, 2}); }), "12 Query has 1 marks and 2 values");
    const std::string point = ": for a name with a point write one place, and give an identifier of two names";
    same(thrown([] { bind("SELECT b.:c", {{"c", 1}}); }), "13 Place 0 at byte 9 does not stand alone" + point);
    same(thrown([] { bind("SELECT :tableId.c", {{"tableId", 1}}); }), "13 Place 0 at byte 7 does not stand alone" + point);
    same(thrown([] { bind(":a", {{"", 1}}); }), "invalid argument");
    same(thrown([] { bind(":a", {{"a\0"sv, 1}}); }), "invalid argument");
    same(thrown([] { bind("?", {static_cast<const char *>(nullptr)}); }), "invalid argument");
    try {
        bind("1, :ab", {{"b", 1}});
        expect(false, "a name is missing");
    } catch (const Error &error) {
        expect(error.report().position == 4 && error.report().len == 2, "the report is handed on");
    }
}

static void queries()
{
    const mysql_params::Names found = mysql_params::names(":a + :b + ':c' + :a");
    same(found.query, "? + ? + ':c' + ?");
    expect(found.names == std::vector<std::string>{"a", "b", "a"}, "the names are a, b, a");
    same(mysql_params::names("SELECT 1").query, "SELECT 1");
    expect(!mysql_params::first_unportable("SELECT :a"), "it is portable");
    const auto construct = mysql_params::first_unportable("SELECT /*! :a */ 1");
    expect(construct && construct->construct == MYSQL_PARAMS_EXECUTABLE_COMMENT && construct->position == 7,
           "a comment is executed");
    expect(construct && construct->message() != nullptr, "the construct has a message");
    const auto in_client = mysql_params::first_unportable_in_client("SELECT 1 /*//*/, :a");
    expect(in_client && in_client->construct == MYSQL_PARAMS_OPENER_IN_COMMENT, "a client reads it otherwise");
    expect(mysql_params::first_unportable("'a\\' [", Mode::no_backslash_escapes).has_value(), "the mode counts");
}

/* The texts follow the MySQL Reference Manual, "Schema Object Names" and "Numeric Literals". */
static void fragments()
{
    using mysql_params::bind_fragments;
    mysql_params::Form form;
    form.append_list("ids", std::vector<int>{1, 2}).append_identifier("t", "a`b").append("x", "it's");
    form.append_rows("rows", std::vector<std::vector<mysql_params::Value>>{{1, "a"}, {2, nullptr}});
    form.append_decimal("p", "-1.50").append_keyword("order", "DESC");
    same(bind_fragments(":ids; :t; :x; :rows; :p; :order", form),
         "1, 2; `a``b`; 'it\\'s'; (1, 'a'), (2, NULL); -1.50; DESC");
    mysql_params::Form marks;
    marks.append_list(nullptr, std::vector<std::string>{"\\"}).append(7);
    same(bind_fragments("? ?", marks, Mode::no_backslash_escapes), "'\\' 7");
    try {
        mysql_params::Form empty;
        bind_fragments("a IN (?)", empty.append_list(nullptr, std::vector<int>{}));
        expect(false, "an empty list is refused");
    } catch (const Error &error) {
        expect(error.number() == MYSQL_PARAMS_FAULT && error.report().byte == MYSQL_PARAMS_FAULT_EMPTY, "it is empty");
        same(error.what(), "Fragment at place 0 can't be written: it is empty");
    }
    same(thrown([] { mysql_params::Form().append_identifier("t", "a\0b"s); }), "invalid argument");
    same(thrown([] { bind_fragments("ORDER BY a ?", mysql_params::Form().append_keyword(nullptr, "desc")); }),
         "17 Fragment at place 0 can't be written: it is none of the keywords in capitals that mysql_params.h lists");
}

/* What is exact, alone and in lists and rows, and a name in another. */
static void exact_numbers_and_names()
{
    using mysql_params::bind_fragments;
    using mysql_params::Decimal;
    same(bind_fragments("?", {Decimal("-1.50")}), "-1.50");
    same(bind_fragments(":a, :b", {{"a", Decimal("12345678901234567890123")}, {"b", std::optional<Decimal>()}}),
         "12345678901234567890123, NULL");
    mysql_params::Form form;
    form.append_rows("rows", std::vector<std::vector<Value>>{{1, "a", Decimal("9.99")}, {2, "b", nullptr}});
    form.append_list("prices", std::vector<Decimal>{Decimal("0.10"), Decimal("7")});
    form.append_qualified("t", {"shop", "acme`2"}).append_qualified("in", std::vector<std::string>{"shop", "t"});
    same(bind_fragments(":in", form), "`shop`.`t`");
    same(bind_fragments(":t :rows IN (:prices)", form), "`shop`.`acme``2` (1, 'a', 9.99), (2, 'b', NULL) IN (0.10, 7)");
    same(mysql_params::bind_fragments_anywhere("?", {Decimal("0.5")}), "0.5");
    same(thrown([] { bind("?", {Decimal("1.5")}); }), "5 Parameter 0 at byte 0 of the form: Unsupported column type 128");
    same(thrown([] { bind_fragments("?", {Decimal("1,5")}); }),
         "17 Fragment at place 0 can't be written: item 0 of row 0 is no exact number");
    same(thrown([] { bind_fragments("?", {Decimal("1\0"sv)}); }), "invalid argument");
    same(thrown([] { mysql_params::Form().append_qualified(nullptr, {"shop", "a\0b"s}); }), "invalid argument");
    same(thrown([] { bind_fragments("?", mysql_params::Form().append_qualified(nullptr, {})); }),
         "17 Fragment at place 0 can't be written: it is empty");
}

/* Identifiers and assignments. The texts follow the MySQL Reference Manual, "INSERT Statement" and "UPDATE Statement". */
static void identifiers_and_assignments()
{
    using mysql_params::bind_fragments;
    using mysql_params::bind_fragments_anywhere;
    using mysql_params::Column;
    using mysql_params::Decimal;
    using Pairs = std::vector<std::pair<std::string, int>>;
    Form form;
    form.append_identifiers("columns", {"a", {"t", "b`"}}).append_assignments("set", {{"a", 1}, {{"t", "b"}, "it's"}});
    same(bind_fragments(":columns; :set", form), "`a`, `t`.`b```; `a` = 1, `t`.`b` = 'it\\'s'");
    same(bind_fragments_anywhere(":columns; :set", form), "`a`, `t`.`b```; `a` = 1, `t`.`b` = _utf8mb4'it''s'");
    Form marks;
    marks.append_identifiers(nullptr, std::vector<std::string>{"a", "b"}).append_identifiers(nullptr, {"one"});
    marks.append_assignments(nullptr, Pairs{{"a", 1}, {"b", 2}}).append_assignments(nullptr, {{"one", nullptr}});
    marks.append_assignments(nullptr, std::vector<std::pair<Column, Value>>{{"x", 0.5}, {{"y"}, Decimal("-1.50")}}).append(7);
    same(bind_fragments("?; ?; ?; ?; ?; ?", marks),
         "`a`, `b`; `one`; `a` = 1, `b` = 2; `one` = NULL; `x` = 0.5e0, `y` = -1.50; 7");
    same(thrown([] { bind_fragments("?", Form().append_identifiers(nullptr, {})); }),
         "17 Fragment at place 0 can't be written: it is empty");
    same(thrown([] { bind_fragments("?", Form().append_assignments(nullptr, Pairs{})); }),
         "17 Fragment at place 0 can't be written: it is empty");
    same(thrown([] { bind_fragments("?", Form().append_assignments(nullptr, {{{"t", "a"}, 1}, {"", 2}})); }),
         "17 Fragment at place 0 can't be written: name 2 is empty");
    same(thrown([] { bind_fragments("?", Form().append_assignments(nullptr, {{"a", Decimal("1")}, {"b", Decimal("1e5")}})); }),
         "17 Fragment at place 0 can't be written: item 1 of row 0 is no exact number");
    same(thrown([] { bind_fragments("?", Form().append_assignments(nullptr, {{"a", -std::numeric_limits<float>::infinity()}})); }),
         "14 Float at place 0");
    same(thrown([] { bind_fragments_anywhere("?", Form().append_assignments(nullptr, {{"\xC3\xA9", 1}})); }),
         "19 Fragment at place 0 has a name with a backslash or a byte that is not ASCII");
    same(thrown([] { bind("?", Form().append_assignments(nullptr, {{"a", 1}})); }),
         "5 Parameter 0 at byte 0 of the form: Unsupported column type 135");
    same(thrown([] { Form().append_identifiers(nullptr, {"a\0b"s}); }), "invalid argument");
    same(thrown([] { Form().append_identifiers(nullptr, {static_cast<const char *>(nullptr)}); }), "invalid argument");
    same(thrown([] { Form().append_assignments(nullptr, {{{"t", "a\0b"s}, 1}}); }), "invalid argument");
}

/* A form to which something can't be appended is as before. */
static void forms_after_exceptions()
{
    using mysql_params::Decimal;
    const Decimal cut("1\0"sv);
    const std::vector<Decimal> items{Decimal("1"), cut};
    const std::string long_text(100000, 'x');
    Form form;
    form.append("a", 1);
    same(thrown([&] { form.append_list("list", items); }), "invalid argument");
    same(thrown([&] { form.append_rows("rows", std::vector<std::vector<Decimal>>{items}); }), "invalid argument");
    same(thrown([&] { form.append_identifiers("names", {"a", "b\0"s}); }), "invalid argument");
    same(thrown([&] { form.append_assignments("set", {{"a", long_text}, {"b", cut}}); }), "invalid argument");
    form.append("b", 2).append_assignments("set", {{"c", 3}});
    same(mysql_params::bind_fragments(":a, :b, :set", form), "1, 2, `c` = 3");
}

/* What a call of rows throws: the row, how many texts stand before it, and the message. */
template <typename Call> static std::string row_thrown(Call call)
{
    try {
        call();
    } catch (const RowError &error) {
        return std::to_string(error.row()) + " " + std::to_string(error.texts().size()) + " " + error.what();
    }
    return "nothing";
}

/* Floats, by the calls that bind fragments; the others refuse each. The digits are those of Python's repr. */
static void floats()
{
    using mysql_params::bind_fragments;
    using mysql_params::bind_fragments_anywhere;
    same(bind_fragments("?, ?, ?", {1.5, -0.0, 0.1F}), "1.5e0, -0.0e0, 0.10000000149011612e0");
    same(bind_fragments_anywhere(":a, :b", {{"a", 5e-324}, {"b", std::optional<double>()}}), "5e-324, NULL");
    mysql_params::Form form;
    form.append_list(nullptr, std::vector<float>{0.5F, 2.0F});
    form.append_rows(nullptr, std::vector<std::vector<Value>>{{1, 1e16}, {2, nullptr}});
    same(bind_fragments_anywhere("IN (?) VALUES ?", form), "IN (0.5e0, 2.0e0) VALUES (1, 1e16), (2, NULL)");
    for (const double number : {std::numeric_limits<double>::infinity(), std::numeric_limits<double>::quiet_NaN()}) {
        const std::string refused = "14 Float at place 1";
        same(thrown([&] { bind_fragments("?, ?", {0.5, number}); }), refused);
        same(thrown([&] { bind_fragments_anywhere("?, ?", {0.5, -number}); }), refused);
        mysql_params::Form list;
        list.append(1).append_list(nullptr, std::vector<double>{0.5, number});
        same(thrown([&] { bind_fragments("?, ?", list); }), refused);
    }
    same(thrown([] { bind(":a, :b", {{"a", 1}, {"b", 1.5}}); }), "14 Float at place 1");
    same(thrown([] { Template("?").bind({1.5F}); }), "14 Float at place 0");
    std::vector<Form> rows(1);
    rows[0].append(1);
    rows.push_back({1.5});
    same(row_thrown([&] { mysql_params::bind_rows("?", rows); }), "1 1 row 1: Float at place 0");
}

/* Steady texts. They follow "Steady binding" in docs/RULES.md. */
static void steady_texts()
{
    using mysql_params::bind_anywhere;
    using mysql_params::bind_in_both_modes;
    same(bind_anywhere("SELECT ?, ?, ?", {42, "it's", "\xC3\xA9"}), "SELECT 42, _utf8mb4'it''s', _utf8mb4 0xC3A9");
    same(bind_anywhere(":Id", {{"Id", nullptr}}), "NULL");
    same(bind_anywhere("SELECT 1"), "SELECT 1");
    same(bind_in_both_modes("SELECT '\xC3\xBC', :a", {{"a", "it's"}}), "SELECT '\xC3\xBC', _utf8mb4'it''s'");
    same(bind_in_both_modes("SELECT 1"), "SELECT 1");
    same(thrown([] { bind_anywhere("?", {1.5}); }), "14 Float at place 0");
    same(thrown([] { bind_in_both_modes("SELECT '\\', ?", {1}); }), "18 Backslash in a string at byte 8 of the query");
    same(thrown([] { bind_anywhere("[a], :a", {{"a", 1}}); }),
         "16 Not portable at byte 0 of the query: `[` may open an identifier: write the name in backquotes");
    same(thrown([] { bind_anywhere(":a", {{"a", 1}, {"a", 2}}); }), "7 Redefinition of named parameter `a'");
}

/* Fragments in steady texts. */
static void steady_fragments()
{
    using mysql_params::bind_fragments_anywhere;
    mysql_params::Form form;
    form.append_list("ids", std::vector<std::string>{"it's", "\xC3\xA9"}).append_identifier("t", "a`b").append("x", 7);
    same(bind_fragments_anywhere(":ids; :t; :x", form), "_utf8mb4'it''s', _utf8mb4 0xC3A9; `a``b`; 7");
    same(bind_fragments_anywhere("SELECT 1"), "SELECT 1");
    try {
        mysql_params::Form name;
        bind_fragments_anywhere("SELECT ?, ?", name.append(1).append_identifier(nullptr, "\xC3\xA9"));
        expect(false, "a name that isn't ASCII is refused");
    } catch (const Error &error) {
        expect(error.number() == MYSQL_PARAMS_UNSTEADY_FRAGMENT && error.report().place == 1, "it isn't steady");
        same(error.what(), "Fragment at place 1 has a name with a backslash or a byte that is not ASCII");
    }
}

/* Fragments in guarded texts. They are restated from "Guarded binding" in docs/RULES.md. */
static void guarded_fragments()
{
    using mysql_params::bind_fragments_guarded;
    mysql_params::Form form;
    form.append_list("Ids", std::vector<std::string>{"it's", "\xC3\xA9\\", "\xFF"}).append_identifier("T", "a`b");
    same(bind_fragments_guarded(":T IN (:Ids)", form), "`a``b` IN ('it''s', '\xC3\xA9' '\\\\', 0xFF)");
    same(bind_fragments_guarded(":T IN (:Ids)", form, Mode::no_backslash_escapes),
         "`a``b` IN ('it''s', _utf8mb4 0xC3A95C, 0xFF)");
    same(thrown([] { bind_fragments_guarded("\\ ?", {1}); }),
         thrown([] { mysql_params::bind_fragments_anywhere("\\ ?", {1}); }));
    same(mysql_params::bind_for_connection(":T IN (:Ids)", form), bind_fragments_guarded(":T IN (:Ids)", form));
    same(mysql_params::bind_for_connection("'\\\\' < ?", {"it's"}), "'\\\\' < 'it\\'s'");
    same(mysql_params::bind_for_connection("'\\' < ?", {"it's"}, Mode::no_backslash_escapes), "'\\' < 'it''s'");
}

static void rows()
{
    using mysql_params::bind_rows;
    std::vector<Form> rows;
    rows.push_back({1, "it's"});
    rows.push_back({2, nullptr});
    const std::vector<std::string> wanted{"(1, 'it\\'s')", "(2, NULL)"};
    expect(bind_rows("(?, ?)", rows) == wanted, "each row has its text");
    expect(Template("(?, ?)").bind_rows(rows) == wanted, "so by a template");
    expect(bind_rows(":a ?", std::vector<Form>()).empty(), "without rows nothing is refused");
    const std::vector<std::string> escaped{"'\\', (1, 'it''s')", "'\\', (2, NULL)"};
    expect(bind_rows("'\\', (?, ?)", rows, Mode::no_backslash_escapes) == escaped, "the mode counts");
    expect(Template("'\\', (?, ?)", Mode::no_backslash_escapes).bind_rows(rows) == escaped, "so by a template");
    rows.push_back({3});
    same(row_thrown([&] { bind_rows("(?, ?)", rows); }), "2 2 row 2: Query has 2 marks and 1 values");
    same(row_thrown([&] { Template("(?, ?)").bind_rows(rows); }), "2 2 row 2: Query has 2 marks and 1 values");
    std::vector<Form> named;
    named.push_back({{"id", 1}});
    named.push_back({{"id", 2}, {"id", 3}});
    same(row_thrown([&] { bind_rows(":id", named); }), "1 1 row 1: Redefinition of named parameter `id'");
    try {
        bind_rows("1, :userId", std::vector<Form>(1));
        expect(false, "a name is missing");
    } catch (const Error &error) {
        expect(error.number() == MYSQL_PARAMS_MISSING && error.report().position == 4, "the report is handed on");
    }
}

static void templates()
{
    std::string query = "SELECT :id, ':id', :name";
    Template made(query);
    query.assign(query.size(), '?');
    same(std::string(made.query()), "SELECT :id, ':id', :name");
    for (int round = 0; round < 2; round++) {
        same(made.bind({{"id", 42}, {"name", "it's"}}), "SELECT 42, ':id', 'it\\'s'");
        same(thrown([&] { made.bind({{"id", round}}); }), "9 Missing named parameter `name` for statement");
        same(thrown([&] { made.bind({{"id", 1}, {"id", 2}}); }), "7 Redefinition of named parameter `id'");
    }
    const std::string quotes(100000, '\'');
    expect(made.bind({{"id", quotes}, {"name", quotes}}).size() == 2 * 200002 + 16, "long texts are bound");
    Template other(std::move(made));
    same(other.bind({{"id", 1}, {"name", 2}}), "SELECT 1, ':id', 2");
    bool moved = false;
    try {
        made.bind();
    } catch (const std::logic_error &) {
        moved = true;
    }
    expect(moved, "what was moved binds nothing");
    made = Template("'\\' :a '", Mode::no_backslash_escapes);
    expect(made.mode() == Mode::no_backslash_escapes && other.mode() == Mode::backslash_escapes, "each has its mode");
    same(made.bind({{"a", "\\"}}), "'\\' '\\' '");
    same(Template("'\\' :a '").bind(), "'\\' :a '");
    same(Template("").bind(), "");
    same(thrown([] { Template(":a ?").bind(); }), "8 Named and positional params in one query");
}

/* By names with capitals. The texts are restated from "Names with capitals" in docs/RULES.md. */
static void wide_names()
{
    using mysql_params::bind_fragments;
    using mysql_params::bind_fragments_anywhere;
    using mysql_params::bind_rows;
    same(bind("id = :userId AND name = :Name", {{"userId", 42}, {"Name", "it's"}}), "id = 42 AND name = 'it\\'s'");
    same(bind(":id, :Id, :ID, ':ID', :id", {{"ID", 1}, {"Id", 2}, {"id", 3}}), "3, 2, 1, ':ID', 3");
    same(bind("':A\\', :A, ':A'", {{"A", 1}}, Mode::no_backslash_escapes), "':A\\', 1, ':A'");
    same(bind("x: LOOP :1 :Id", {{"Id", 2}}), "x: LOOP :1 2");
    Form form;
    form.append_list("userIds", std::vector<int>{7, 8}).append_identifier("Table", "t").append("Name", "it's");
    same(bind_fragments("FROM :Table (:userIds) :Name", form), "FROM `t` (7, 8) 'it\\'s'");
    same(bind_fragments_anywhere("FROM :Table (:userIds) :Name", form), "FROM `t` (7, 8) _utf8mb4'it''s'");
    std::vector<Form> rows;
    rows.push_back({{"userId", 1}, {"Name", "a"}});
    rows.push_back({{"Name", "b"}, {"userId", 2}});
    const std::vector<std::string> wanted{"(1, 'a')", "(2, 'b')"};
    const Template made("(:userId, :Name)");
    expect(bind_rows("(:userId, :Name)", rows) == wanted, "each row has its text");
    expect(made.bind_rows(rows) == wanted, "so by a template");
    same(made.bind(rows[1]), wanted[1]);
    rows.push_back({{"userID", 3}, {"Name", "c"}});
    same(row_thrown([&] { made.bind_rows(rows); }), "2 2 row 2: Missing named parameter `userId` for statement");
    const mysql_params::Names found = mysql_params::names("SELECT :userId, ':A', :ID, :userId");
    same(found.query, "SELECT ?, ':A', ?, ?");
    expect(found.names == std::vector<std::string>{"userId", "ID", "userId"}, "the names have capitals");
    same(thrown([] { bind("SELECT x:A", {{"A", 1}}); }), "13 Place 0 at byte 8 does not stand alone");
    same(thrown([] { bind("lbl:BEGIN", {{"BEGIN", 1}}); }), "13 Place 0 at byte 3 does not stand alone");
    same(thrown([] { bind(":A, ?", {{"A", 1}}); }), "8 Named and positional params in one query");
}

/* Whether a call throws std::bad_alloc if the archive is given no memory. */
template <typename Call> static bool needs_memory(Call call)
{
    bool thrown = false;
    refuses_memory = true;
    try {
        call();
    } catch (const std::bad_alloc &) {
        thrown = true;
    }
    refuses_memory = false;
    return thrown;
}

/* A call whose answer needs a length of room. */
struct Needing {
    std::size_t len;
    std::int32_t operator()(std::uint8_t *, std::size_t, mysql_params_report *report) const
    {
        report->len = len;
        return MYSQL_PARAMS_ROOM;
    }
    [[noreturn]] void refuse(std::int32_t, const mysql_params_report &) const { throw std::logic_error("it isn't refused"); }
};

/* A text that is longer than any string is one for which there is no memory. */
static void texts_too_long()
{
    const std::size_t longest = std::string().max_size();
    for (std::size_t len : {longest + 1, std::numeric_limits<std::size_t>::max()}) {
        expect(needs_memory([&] { mysql_params::detail::whole_answer(0, Needing{len}); }), "the answer is too long");
        expect(needs_memory([&] { mysql_params::detail::whole_answer(len, Needing{0}); }), "the guess is too long");
    }
}

/* Of a query with a capital in a name a copy is made. */
static void constructs_of_wide_names()
{
    using mysql_params::first_unportable;
    using mysql_params::first_unportable_in_client;
    const std::string_view hint = "SELECT /*+ SET_VAR(x=:A) */ 1";
    const auto construct = first_unportable(hint);
    expect(construct && construct->construct == MYSQL_PARAMS_HINT && construct->position == 7, "a value is in the hint");
    const auto in_client = first_unportable_in_client("-:A");
    expect(in_client && in_client->construct == MYSQL_PARAMS_DASH_IN_FRONT, "a client may take it for a comment");
    expect(!first_unportable("SELECT :userId") && !first_unportable_in_client("SELECT :userId"), "it is portable");
    expect(!needs_memory([&] { first_unportable(hint); }), "it needs no memory");
    expect(!needs_memory([&] { first_unportable_in_client("SELECT :userId"); }), "nor does it for a client");
}

/* The folder of the cases. */
static const char *folder;

static std::string_view view(const bytes &it)
{
    return {reinterpret_cast<const char *>(it.at), it.len};
}

/* A form of these bytes, which the header has no call for. */
static Form form_of(std::string_view flat)
{
    Form form;
    auto &inner = const_cast<mysql_params_form &>(form.get());
    if (flat.empty())
        return form;
    inner.room = static_cast<std::uint8_t *>(std::malloc(flat.size()));
    if (inner.room == nullptr)
        throw std::bad_alloc();
    std::memcpy(inner.room, flat.data(), flat.size());
    inner.room_len = inner.len = inner.needed = inner.written = flat.size();
    return form;
}

static void expect_of(const test_case &it, bool holds, const char *what)
{
    if (!holds)
        std::printf("    the case at line %d:\n", it.line);
    expect(holds, what);
}

/* The call gives what the case wants, or throws its refusal with its report and its message. */
template <typename Call> static void try_case(const test_case &it, Call call)
{
    try {
        const bool same_answer = call() == view(it.answer);
        expect_of(it, it.number == MYSQL_PARAMS_DONE && same_answer, "another answer is wanted");
    } catch (const Error &error) {
        const mysql_params_report &got = error.report();
        const mysql_params_report &wanted = it.report;
        expect_of(it, error.number() == it.number, "another number is wanted");
        expect_of(it, got.len == wanted.len && got.place == wanted.place && got.position == wanted.position, "another report");
        expect_of(it, got.marks == wanted.marks && got.values == wanted.values && got.byte == wanted.byte, "another report");
        expect_of(it, it.message.len == 0 || error.what() == view(it.message), error.what());
    }
}

static Mode mode_of(const test_case &it)
{
    return it.no_backslash_escape ? Mode::no_backslash_escapes : Mode::backslash_escapes;
}

static void try_bind(const test_case *it)
{
    const Form form = form_of(view(it->form));
    try_case(*it, [&] { return bind(view(it->query), form, mode_of(*it)); });
    try_case(*it, [&] { return Template(view(it->query), mode_of(*it)).bind(form); });
}

static void try_fragments(const test_case *it)
{
    const Form form = form_of(view(it->form));
    try_case(*it, [&] { return mysql_params::bind_fragments(view(it->query), form, mode_of(*it)); });
}

static void try_anywhere(const test_case *it)
{
    const Form form = form_of(view(it->form));
    try_case(*it, [&] { return mysql_params::bind_anywhere(view(it->query), form); });
    for (Mode mode : {Mode::backslash_escapes, Mode::no_backslash_escapes})
        try_case(*it, [&] { return Template(view(it->query), mode).bind_anywhere(form); });
}

static void try_in_both_modes(const test_case *it)
{
    const Form form = form_of(view(it->form));
    try_case(*it, [&] { return mysql_params::bind_in_both_modes(view(it->query), form); });
}

static void try_fragments_anywhere(const test_case *it)
{
    const Form form = form_of(view(it->form));
    try_case(*it, [&] { return mysql_params::bind_fragments_anywhere(view(it->query), form); });
}

/* Appends a length-encoded string. */
static void append_to(bytes &answer, const std::string &text)
{
    append_string(&answer, text.data(), text.size());
}

static void try_names(const test_case *it)
{
    try_case(*it, [&] {
        const mysql_params::Names found = mysql_params::names(view(it->query), mode_of(*it));
        bytes answer{};
        append_to(answer, found.query);
        for (const std::string &name : found.names)
            append_to(answer, name);
        std::string whole(view(answer));
        clear_bytes(&answer);
        return whole;
    });
}

static void try_rows(const test_case *it)
{
    std::vector<Form> rows;
    const std::uint8_t *rest = it->forms.at;
    std::size_t left = it->forms.len;
    for (mysql_params_string form{}; mysql_params_next_string(&rest, &left, &form);)
        rows.push_back(form_of({reinterpret_cast<const char *>(form.bytes), form.len}));
    bytes answer{};
    std::int32_t number = MYSQL_PARAMS_DONE;
    try {
        for (const std::string &text : mysql_params::bind_rows(view(it->query), rows, mode_of(*it)))
            append_to(answer, text);
    } catch (const RowError &error) {
        for (const std::string &text : error.texts())
            append_to(answer, text);
        number = error.number();
        expect_of(*it, error.row() == it->texts && error.report().position == it->report.position, "another row is wanted");
    }
    expect_of(*it, number == it->number && view(answer) == view(it->answer), "other rows are wanted");
    clear_bytes(&answer);
}

static void try_construct(const test_case &it, const std::optional<mysql_params::Unportable> &found)
{
    expect_of(it, found.has_value() != it.portable, "it is portable, or not");
    expect_of(it, !found || (found->construct == it.number && found->position == it.report.position), "another is wanted");
    expect_of(it, !found || it.message.len == 0 || found->message() == view(it.message), "another message is wanted");
}

static void try_portable(const test_case *it)
{
    try_construct(*it, mysql_params::first_unportable(view(it->query), mode_of(*it)));
}

static void try_in_client(const test_case *it)
{
    try_construct(*it, mysql_params::first_unportable_in_client(view(it->query), mode_of(*it)));
}

/* The cases of all calls, and those by wide names. */
static void cases()
{
    for (const std::string in : {"", "wide/"}) {
        each_case(folder, (in + "bind.txt").c_str(), try_bind);
        each_case(folder, (in + "fragments.txt").c_str(), try_fragments);
        each_case(folder, (in + "anywhere.txt").c_str(), try_anywhere);
        each_case(folder, (in + "anywhere.txt").c_str(), try_fragments_anywhere);
        each_case(folder, (in + "both_modes.txt").c_str(), try_in_both_modes);
        each_case(folder, (in + "fragments_anywhere.txt").c_str(), try_fragments_anywhere);
        each_case(folder, (in + "names.txt").c_str(), try_names);
        each_case(folder, (in + "rows.txt").c_str(), try_rows);
        each_case(folder, (in + "portable.txt").c_str(), try_portable);
        each_case(folder, (in + "in_client.txt").c_str(), try_in_client);
    }
    each_case(folder, "forms.txt", try_bind);
}

static bool passed(const char *name, void test())
{
    failures = 0;
    test();
    std::printf("test %s ... %s\n", name, failures == 0 ? "ok" : "FAILED");
    return failures == 0;
}

int main(int count, char **words)
{
    if (count != 2) {
        std::fprintf(stderr, "usage: test CASES\n");
        return 2;
    }
    folder = words[1];
    bool all = passed("values", values);
    all &= passed("named_and_without", named_and_without);
    all &= passed("forms", forms);
    all &= passed("refusals", refusals);
    all &= passed("queries", queries);
    all &= passed("fragments", fragments);
    all &= passed("exact_numbers_and_names", exact_numbers_and_names);
    all &= passed("identifiers_and_assignments", identifiers_and_assignments);
    all &= passed("forms_after_exceptions", forms_after_exceptions);
    all &= passed("floats", floats);
    all &= passed("steady_texts", steady_texts);
    all &= passed("steady_fragments", steady_fragments);
    all &= passed("guarded_fragments", guarded_fragments);
    all &= passed("rows", rows);
    all &= passed("templates", templates);
    all &= passed("wide_names", wide_names);
    all &= passed("constructs_of_wide_names", constructs_of_wide_names);
    all &= passed("texts_too_long", texts_too_long);
    all &= passed("cases", cases);
    return all ? 0 : 1;
}
