/* mysql_params.hpp: values bound into SQL queries from C++17, over mysql_params.h and mysql_params_form.h.
 *
 *     std::string text = mysql_params::bind_anywhere("id = :id AND name = :name", {{"id", 42}, {"name", name}});
 *     std::string text = mysql_params::bind("VALUES (?, ?)", {42, nullptr});
 *
 * All memory is owned by what is returned. Each call may throw std::bad_alloc; a refusal is thrown as mysql_params::Error.
 * A name in a query may have capitals, as `:userId`: it is a wide name of mysql_params.h. It is tested, not proved. Read
 * "Limits that matter for security" in README.md first. */
#ifndef MYSQL_PARAMS_HPP
#define MYSQL_PARAMS_HPP

#include "mysql_params_form.h"

#include <cstdlib>
#include <cstring>
#include <initializer_list>
#include <limits>
#include <memory>
#include <new>
#include <optional>
#include <stdexcept>
#include <string>
#include <string_view>
#include <type_traits>
#include <utility>
#include <variant>
#include <vector>

namespace mysql_params {

/* Whether a backslash escapes on the connection: `no_backslash_escapes` if SELECT @@sql_mode, asked on it, has
 * NO_BACKSLASH_ESCAPES. If mode and connection differ, a value can leave its literal. */
enum class Mode : bool { backslash_escapes = false, no_backslash_escapes = true };

/* A refusal: its number is one of enum mysql_params_number, what() its message. */
class Error : public std::runtime_error {
public:
    Error(std::int32_t number, const mysql_params_report &report, const std::string &message)
        : std::runtime_error(message), number_(number), report_(report)
    {
    }
    /* The number. */
    std::int32_t number() const noexcept { return number_; }
    /* The fields that belong to the number, as mysql_params.h says. */
    const mysql_params_report &report() const noexcept { return report_; }

private:
    std::int32_t number_;
    mysql_params_report report_;
};

/* A row that is refused: as Error, of the row's own call of bind; what() begins with the row. */
class RowError : public Error {
public:
    RowError(std::size_t row, const Error &error, std::vector<std::string> texts)
        : Error(error.number(), error.report(), "row " + std::to_string(row) + ": " + error.what()), row_(row),
          texts_(std::make_shared<const std::vector<std::string>>(std::move(texts)))
    {
    }
    /* The number of the row, from 0. */
    std::size_t row() const noexcept { return row_; }
    /* The texts of the rows before it. */
    const std::vector<std::string> &texts() const noexcept { return *texts_; }

private:
    std::size_t row_;
    std::shared_ptr<const std::vector<std::string>> texts_;
};

/* A construct that servers read in different ways, and the byte of the query at which it begins. */
struct Unportable {
    std::int32_t construct;
    std::size_t position;
    /* What it is, with what to write instead. */
    const char *message() const noexcept { return mysql_params_construct_message(construct); }
};

/* The query with `?` in the place of each name, and the names without their colons, in order, with repeats. */
struct Names {
    std::string query;
    std::vector<std::string> names;
};

namespace detail {

template <typename T>
inline constexpr bool is_character = std::is_same_v<T, char> || std::is_same_v<T, wchar_t> ||
#ifdef __cpp_char8_t
                                     std::is_same_v<T, char8_t> ||
#endif
                                     std::is_same_v<T, char16_t> || std::is_same_v<T, char32_t>;

template <typename T>
inline constexpr bool is_number = std::is_integral_v<T> && !is_character<T> && sizeof(T) <= 8;

/* Whether a double has each value of the type. */
template <typename T> inline constexpr bool is_double = std::is_same_v<T, double> || std::is_same_v<T, float>;

template <typename T>
inline constexpr bool is_text = std::is_convertible_v<const T &, std::string_view> &&
                                !std::is_convertible_v<const T &, const char *>;

/* The text that a zero byte ends. Throws std::invalid_argument if the pointer is null. */
inline std::string_view ended(const char *text)
{
    if (text == nullptr)
        throw std::invalid_argument("mysql_params: a text is a null pointer: nullptr itself is NULL");
    return text;
}

/* A copy of one text. Of a brace too many, as {{"shop", "t"}}, a std::string would be made of the bytes from one pointer to
 * the other: this doesn't compile. */
struct Text {
    Text(const char *text) : string(ended(text)) {}
    template <typename T, std::enable_if_t<is_text<T>, int> = 0> Text(const T &text) : string(std::string_view(text)) {}
    Text(const char *, const char *) = delete;
    std::string string;
};

} // namespace detail

/* An exact number, as Decimal("-1.50") or a whole number of any length. It borrows its digits, as a Value its bytes. */
struct Decimal {
    explicit Decimal(std::string_view text) noexcept : digits(text) {}
    std::string_view digits;
};

/* A value for a place, made of a whole number, a bool (1 or 0), a float or a double, a text or bytes, nullptr or an empty
 * std::optional (NULL), a date, a time or a Decimal. It borrows its bytes: use it within the call that takes it. Write
 * nullptr and not the macro NULL, which may be bound as the number 0. A long double or a character doesn't compile.
 *
 * bind_fragments and bind_fragments_anywhere write a Decimal bare, and a float or a double as a number that a server reads as
 * this DOUBLE, 1.5e0; they refuse a NaN and an infinity as MYSQL_PARAMS_FLOAT: give nullptr. The other calls refuse each float
 * so, and a Decimal as MYSQL_PARAMS_FORM_TYPE. */
class Value {
public:
    Value(std::nullptr_t) noexcept {}
    template <typename T, std::enable_if_t<detail::is_number<T>, int> = 0>
    Value(T number) noexcept
    {
        if constexpr (std::is_signed_v<T> || std::is_same_v<T, bool>)
            held_ = static_cast<std::int64_t>(number);
        else
            held_ = static_cast<std::uint64_t>(number);
    }
    template <typename T, std::enable_if_t<detail::is_double<T>, int> = 0>
    Value(T number) noexcept : held_(static_cast<double>(number))
    {
    }
    template <typename T, std::enable_if_t<(std::is_floating_point_v<T> && !detail::is_double<T>) || detail::is_character<T>,
                                           int> = 0>
    Value(T) = delete;
    Value(std::string_view text) noexcept : held_(text) {}
    Value(const std::string &text) noexcept : held_(std::string_view(text)) {}
    /* A text that a zero byte ends. Throws std::invalid_argument if the pointer is null. */
    Value(const char *text) : held_(detail::ended(text)) {}
    Value(const std::vector<std::uint8_t> &bytes) noexcept
        : held_(std::string_view(reinterpret_cast<const char *>(bytes.data()), bytes.size()))
    {
    }
    Value(const mysql_params_date &date) noexcept : held_(date) {}
    Value(const mysql_params_time &time) noexcept : held_(time) {}
    Value(const Decimal &number) noexcept : held_(number) {}
    template <typename T>
    Value(const std::optional<T> &thing) : Value(thing ? Value(*thing) : Value(nullptr))
    {
    }

private:
    friend class Form;
    std::variant<std::monostate, std::int64_t, std::uint64_t, double, std::string_view, mysql_params_date,
                 mysql_params_time, Decimal>
        held_;
};

/* The name of a column, as "price", or with the names of what it is in before it, as {"item", "price"}. It owns them. */
struct Column {
    template <typename T, std::enable_if_t<std::is_convertible_v<const T &, detail::Text>, int> = 0>
    Column(const T &name) : names{detail::Text(name).string}
    {
    }
    Column(std::initializer_list<detail::Text> parts)
    {
        for (const detail::Text &part : parts)
            names.push_back(part.string);
    }
    Column(std::vector<std::string> parts) noexcept : names(std::move(parts)) {}
    std::vector<std::string> names;
};

/* Parameters, by name or in order. It owns all that was appended. */
class Form {
public:
    Form() noexcept : form_(mysql_params_form_growing()) {}
    /* Parameters by name: {{"id", 42}, {"name", name}}. */
    Form(std::initializer_list<std::pair<std::string_view, Value>> named) : Form()
    {
        for (const auto &[name, value] : named)
            append(name, value);
    }
    /* Parameters in order: {42, name}. */
    Form(std::initializer_list<Value> values) : Form()
    {
        for (const Value &value : values)
            append(value);
    }
    Form(Form &&other) noexcept : Form() { std::swap(form_, other.form_); }
    Form &operator=(Form &&other) noexcept
    {
        std::swap(form_, other.form_);
        return *this;
    }
    Form(const Form &) = delete;
    Form &operator=(const Form &) = delete;
    ~Form() { mysql_params_form_free(&form_); }

    /* Appends a parameter by name. Throws std::invalid_argument for an empty name, or one with a zero byte. */
    Form &append(std::string_view name, const Value &value)
    {
        if (name.empty() || name.find('\0') != name.npos)
            throw std::invalid_argument("mysql_params: a name is empty, or holds a zero byte");
        return append_as(std::string(name).c_str(), value);
    }
    /* Appends a parameter in order. */
    Form &append(const Value &value) { return append_as(nullptr, value); }
    /* Those below append what bind_fragments and bind_fragments_anywhere alone take; in order if the name is null. An exact
     * number, as "-1.50". */
    Form &append_decimal(const char *name, const detail::Text &digits)
    {
        return append_as(name, Decimal(digits.string));
    }
    /* The name of a table or a column. */
    Form &append_identifier(const char *name, const detail::Text &identifier)
    {
        return fitting(mysql_params_append_identifier(&form_, name, whole(identifier.string)));
    }
    /* The name of what is in something else, as {"shop", "t"} of a table in a database. */
    Form &append_qualified(const char *name, const Column &identifiers)
    {
        const std::vector<const char *> texts = texts_of(identifiers.names);
        return fitting(mysql_params_append_qualified(&form_, name, texts.data(), static_cast<std::uint32_t>(texts.size())));
    }
    /* A keyword that the program has, as "DESC": never a text from outside. */
    Form &append_keyword(const char *name, const char *keyword)
    {
        return fitting(mysql_params_append_keyword(&form_, name, keyword));
    }
    /* A list of what makes a Value, as for `IN (?)`. */
    template <typename Items> Form &append_list(const char *name, const Items &items)
    {
        return appending([&] {
            mysql_params_begin_list(&form_, name);
            for (const auto &item : items)
                append_as(nullptr, Value(item));
            fitting(mysql_params_end_list(&form_));
        });
    }
    /* Rows of what makes a Value, as for `VALUES ?`. */
    template <typename Rows> Form &append_rows(const char *name, const Rows &rows)
    {
        return appending([&] {
            mysql_params_begin_rows(&form_, name);
            for (const auto &row : rows) {
                mysql_params_begin_row(&form_);
                for (const auto &item : row)
                    append_as(nullptr, Value(item));
                mysql_params_end_row(&form_);
            }
            fitting(mysql_params_end_rows(&form_));
        });
    }
    /* Names with commas between them, of what makes a Column, as {"id", "price"} for `INSERT INTO t (?)`. */
    template <typename Columns = std::vector<Column>> Form &append_identifiers(const char *name, const Columns &columns)
    {
        return appending([&] {
            mysql_params_begin_identifiers(&form_, name);
            for (const auto &column : columns)
                append_qualified(nullptr, Column(column));
            fitting(mysql_params_end_identifiers(&form_));
        });
    }
    /* Assignments, of pairs of what makes a Column and a Value, as {{"price", 7}, {"sold", nullptr}} or a std::map for
     * `SET ?`. */
    template <typename Pairs = std::vector<std::pair<Column, Value>>>
    Form &append_assignments(const char *name, const Pairs &pairs)
    {
        return appending([&] {
            mysql_params_begin_assignments(&form_, name);
            for (const auto &[column, value] : pairs) {
                const Column owned(column);
                const std::vector<const char *> names = texts_of(owned.names);
                fitting(mysql_params_begin_assignment(&form_, names.data(), static_cast<std::uint32_t>(names.size())));
                append_as(nullptr, Value(value));
            }
            fitting(mysql_params_end_assignments(&form_));
        });
    }
    /* The flat form, as mysql_params_bind takes it. */
    const mysql_params_form &get() const noexcept { return form_; }

private:
    Form &fitting(bool fits)
    {
        if (!fits)
            throw std::bad_alloc();
        return *this;
    }
    /* Appends several parts: if that throws, the form is as before. */
    template <typename Append> Form &appending(Append append)
    {
        mysql_params_form before = form_;
        try {
            append();
        } catch (...) {
            before.room = form_.room;
            before.room_len = form_.room_len;
            form_ = before;
            throw;
        }
        return *this;
    }
    /* A text without a zero byte, which would cut it. */
    static const char *whole(const std::string &text)
    {
        if (text.find('\0') != text.npos)
            throw std::invalid_argument("mysql_params: a name or a number holds a zero byte");
        return text.c_str();
    }
    /* Those of names, of which there are no more than a count says. */
    static std::vector<const char *> texts_of(const std::vector<std::string> &names)
    {
        if (names.size() > std::numeric_limits<std::uint32_t>::max())
            throw std::bad_alloc();
        std::vector<const char *> texts;
        for (const std::string &name : names)
            texts.push_back(whole(name));
        return texts;
    }
    Form &append_as(const char *name, const Value &value)
    {
        const bool fits = std::visit(
            [&](const auto &held) {
                using T = std::decay_t<decltype(held)>;
                if constexpr (std::is_same_v<T, std::monostate>)
                    return mysql_params_append_null(&form_, name);
                else if constexpr (std::is_same_v<T, std::int64_t>)
                    return mysql_params_append_int(&form_, name, held);
                else if constexpr (std::is_same_v<T, std::uint64_t>)
                    return mysql_params_append_uint(&form_, name, held);
                else if constexpr (std::is_same_v<T, double>)
                    return mysql_params_append_double(&form_, name, held);
                else if constexpr (std::is_same_v<T, std::string_view>)
                    return mysql_params_append_bytes(&form_, name, held.data(), held.size());
                else if constexpr (std::is_same_v<T, mysql_params_date>)
                    return mysql_params_append_date(&form_, name, held);
                else if constexpr (std::is_same_v<T, Decimal>)
                    return mysql_params_append_decimal(&form_, name, whole(std::string(held.digits)));
                else
                    return mysql_params_append_time(&form_, name, held);
            },
            value.held_);
        return fitting(fits);
    }

    mysql_params_form form_;
};

namespace detail {

inline const std::uint8_t *bytes_of(std::string_view text) noexcept
{
    return reinterpret_cast<const std::uint8_t *>(text.empty() ? "" : text.data());
}

/* Throws std::runtime_error if the processor lacks a feature of x86-64-v2. */
inline void need_processor()
{
    static const bool suffices = mysql_params_processor_suffices();
    if (!suffices)
        throw std::runtime_error("mysql_params: the processor lacks a feature of x86-64-v2");
}

/* What a number other than MYSQL_PARAMS_DONE is thrown as. */
[[noreturn]] inline void refuse(std::int32_t number, const mysql_params_report &report, std::string_view source)
{
    if (number == MYSQL_PARAMS_OUT_OF_MEMORY)
        throw std::bad_alloc();
    std::string line(mysql_params_message_wide(number, &report, bytes_of(source), source.size(), nullptr, 0) + 1, '\0');
    line.resize(mysql_params_message_wide(number, &report, bytes_of(source), source.size(), line.data(), line.size()));
    throw Error(number, report, line);
}

/* So many zero bytes. Throws std::bad_alloc if no string is so long. */
inline std::string zeros(std::size_t count)
{
    if (count > std::string().max_size())
        throw std::bad_alloc();
    return std::string(count, '\0');
}

/* The whole answer of a call: in a room of a guessed length, and again in one of the length that it needs. */
template <typename Call> std::string whole_answer(std::size_t guess, Call call)
{
    need_processor();
    std::string room = zeros(guess);
    for (;;) {
        mysql_params_report report{};
        const std::int32_t number = call(reinterpret_cast<std::uint8_t *>(room.data()), room.size(), &report);
        if (number == MYSQL_PARAMS_DONE) {
            room.resize(report.len);
            return room;
        }
        if (number != MYSQL_PARAMS_ROOM)
            call.refuse(number, report);
        room = zeros(report.len);
    }
}

/* A call that binds a form to a query: `call` takes the room, its length and the report. */
template <typename Call> struct Binding {
    std::string_view query;
    const mysql_params_form &form;
    Call call;
    std::int32_t operator()(std::uint8_t *room, std::size_t room_len, mysql_params_report *report) const
    {
        return call(room, room_len, report);
    }
    [[noreturn]] void refuse(std::int32_t number, const mysql_params_report &report) const
    {
        const std::string_view whole(reinterpret_cast<const char *>(form.room), form.len);
        detail::refuse(number, report, number == MYSQL_PARAMS_FORM_REPEATED ? whole : query);
    }
};

/* The text that such a call gives. */
template <typename Call> std::string bound(std::string_view query, const mysql_params_form &form, Call call)
{
    return whole_answer(query.size() + 2 * form.len + 64, Binding<Call>{query, form, call});
}

/* That of a call in a mode. */
inline std::string bound_in(decltype(mysql_params_bind_wide) *bind, std::string_view query, const Form &form, Mode mode)
{
    const mysql_params_form &flat = form.get();
    return bound(query, flat, [=](std::uint8_t *room, std::size_t room_len, mysql_params_report *report) {
        return bind(bytes_of(query), query.size(), flat.room, flat.len, mode == Mode::no_backslash_escapes, room, room_len,
                    report);
    });
}

/* That of a call in no mode. */
inline std::string bound_anywhere(decltype(mysql_params_bind_anywhere_wide) *bind, std::string_view query, const Form &form)
{
    const mysql_params_form &flat = form.get();
    return bound(query, flat, [=](std::uint8_t *room, std::size_t room_len, mysql_params_report *report) {
        return bind(bytes_of(query), query.size(), flat.room, flat.len, room, room_len, report);
    });
}

/* The forms of rows, each as a length-encoded string. */
class RowForms {
public:
    RowForms() noexcept : forms_(mysql_params_form_growing()) {}
    RowForms(const RowForms &) = delete;
    RowForms &operator=(const RowForms &) = delete;
    ~RowForms() { mysql_params_form_free(&forms_); }
    void append(const Form &row)
    {
        if (!mysql_params_append_row(&forms_, &row.get()))
            throw std::bad_alloc();
    }
    std::string_view bytes() const noexcept { return {reinterpret_cast<const char *>(forms_.room), forms_.len}; }

private:
    mysql_params_form forms_;
};

/* The texts of rows, each as a length-encoded string. */
struct RowTexts {
    mysql_params_texts texts{};
    RowTexts() = default;
    RowTexts(const RowTexts &) = delete;
    RowTexts &operator=(const RowTexts &) = delete;
    ~RowTexts() { std::free(texts.at); }
};

/* The strings of which bytes are a row. */
inline std::vector<std::string> strings_of(const std::uint8_t *bytes, std::size_t len)
{
    std::vector<std::string> found;
    mysql_params_string string{};
    while (len > 0) {
        if (!mysql_params_next_string(&bytes, &len, &string))
            throw std::runtime_error("mysql_params: the answer is no row of strings");
        found.emplace_back(reinterpret_cast<const char *>(string.bytes), string.len);
    }
    return found;
}

/* The texts of rows of a query. */
template <typename Rows>
std::vector<std::string> bound_rows(std::string_view query, const Rows &rows, bool no_backslash_escape)
{
    need_processor();
    RowForms forms;
    for (const Form &row : rows)
        forms.append(row);
    const std::string_view all = forms.bytes();
    RowTexts room;
    mysql_params_rows bound{};
    mysql_params_report report{};
    const std::int32_t number = mysql_params_bind_all_rows_wide(bytes_of(query), query.size(), bytes_of(all), all.size(),
                                                                no_backslash_escape, &room.texts, &bound, &report);
    std::vector<std::string> texts = strings_of(room.texts.at, room.texts.len);
    if (number == MYSQL_PARAMS_DONE)
        return texts;
    try {
        if (number != MYSQL_PARAMS_FORM_REPEATED)
            refuse(number, report, query);
        const std::uint8_t *rest = bytes_of(all) + bound.read;
        std::size_t left = all.size() - bound.read;
        mysql_params_string form{};
        mysql_params_next_string(&rest, &left, &form);
        refuse(number, report, {reinterpret_cast<const char *>(form.bytes), form.len});
    } catch (const Error &error) {
        throw RowError(bound.count, error, std::move(texts));
    }
}

struct NamesOf {
    std::string_view query;
    bool no_backslash_escape;
    std::int32_t operator()(std::uint8_t *room, std::size_t room_len, mysql_params_report *report) const
    {
        return mysql_params_names_wide(bytes_of(query), query.size(), no_backslash_escape, room, room_len, report);
    }
    [[noreturn]] void refuse(std::int32_t number, const mysql_params_report &report) const
    {
        detail::refuse(number, report, query);
    }
};

template <typename Find> std::optional<Unportable> found(Find find, std::string_view query, Mode mode)
{
    need_processor();
    mysql_params_report report{};
    const std::int32_t construct =
        find(bytes_of(query), query.size(), mode == Mode::no_backslash_escapes, &report);
    if (construct == MYSQL_PARAMS_PORTABLE)
        return std::nullopt;
    return Unportable{construct, report.position};
}

} // namespace detail

/* The query with the SQL literals of the values in its places: the text to send. Ask first_unportable of the query, once,
 * before. Throws Error. */
inline std::string bind(std::string_view query, const Form &form = {}, Mode mode = Mode::backslash_escapes)
{
    return detail::bound_in(mysql_params_bind_wide, query, form, mode);
}

/* The same of a form that has doubles, lists, rows, exact numbers, identifiers, assignments or keywords too. Throws Error. */
inline std::string bind_fragments(std::string_view query, const Form &form, Mode mode = Mode::backslash_escapes)
{
    return detail::bound_in(mysql_params_bind_fragments_wide, query, form, mode);
}

/* As bind, with literals whose ends no sql_mode and no character set moves, on MySQL or MariaDB. The query has to be ASCII
 * without a backslash, and portable, for which it is asked. Throws Error. */
inline std::string bind_anywhere(std::string_view query, const Form &form = {})
{
    return detail::bound_anywhere(mysql_params_bind_anywhere_wide, query, form);
}

/* As bind_anywhere, of a form as for bind_fragments. A name has to be ASCII without a backslash too. Throws Error. */
inline std::string bind_fragments_anywhere(std::string_view query, const Form &form = {})
{
    return detail::bound_anywhere(mysql_params_bind_fragments_anywhere_wide, query, form);
}

/* As bind_fragments_anywhere, with literals that have the connection's collation. The connection is taken to be in this mode
 * over utf8mb4; no other mode or character set, except swe7, moves a literal's end. Throws Error. */
inline std::string bind_fragments_guarded(std::string_view query, const Form &form, Mode mode = Mode::backslash_escapes)
{
    return detail::bound_in(mysql_params_bind_fragments_guarded_wide, query, form, mode);
}

/* The text to send over a connection of this mode over utf8mb4, as of bind_fragments_guarded; as of bind_fragments if the query, or
 * a name, isn't ASCII without a backslash. The query has to be portable. Throws Error. */
inline std::string bind_for_connection(std::string_view query, const Form &form, Mode mode = Mode::backslash_escapes)
{
    const mysql_params_form &flat = form.get();
    return detail::bound(query, flat, [&](std::uint8_t *room, std::size_t room_len, mysql_params_report *report) {
        return mysql_params_bind_for_connection_wide(detail::bytes_of(query), query.size(), flat.room, flat.len, true,
                                                     mode == Mode::no_backslash_escapes, room, room_len, report);
    });
}

/* As bind_anywhere, of a query that may have bytes from 128 on. The connection's character set has to be that of the query,
 * utf8mb4 for UTF-8, and no string of the query may hold a backslash. Throws Error. */
inline std::string bind_in_both_modes(std::string_view query, const Form &form = {})
{
    return detail::bound_anywhere(mysql_params_bind_in_both_modes_wide, query, form);
}

/* The text of each row: what bind gives for the query and the row, a Form. Rows are a std::vector<Form>, or anything else
 * that gives them one after another. The query is parsed once for all rows. Throws RowError for the first that is
 * refused. */
template <typename Rows>
std::vector<std::string> bind_rows(std::string_view query, const Rows &rows, Mode mode = Mode::backslash_escapes)
{
    return detail::bound_rows(query, rows, mode == Mode::no_backslash_escapes);
}

/* A query whose places are found once, to bind it many times: it gives what bind gives, or bind_anywhere, without a walk of
 * the query. It owns a copy of the query, and binding it changes nothing, so that many threads may do so at once. It is
 * moved, not copied; to bind what was moved from throws std::logic_error. */
class Template {
public:
    /* Throws std::bad_alloc. A query that can't be bound is refused when it is bound. */
    explicit Template(std::string_view query, Mode mode = Mode::backslash_escapes)
        : made_(made_of(query, mode)), mode_(mode)
    {
    }

    /* What bind gives for the query in its mode. Throws Error. */
    std::string bind(const Form &form = {}) const
    {
        const mysql_params_form &flat = form.get();
        return detail::bound(query(), flat, [&](std::uint8_t *room, std::size_t room_len, mysql_params_report *report) {
            return mysql_params_template_bind(made_.get(), flat.room, flat.len, room, room_len, report);
        });
    }
    /* What bind_anywhere gives for the query, whatever the template's mode. A query that it takes is tested once, for all
     * calls. Throws Error. */
    std::string bind_anywhere(const Form &form = {}) const
    {
        const mysql_params_form &flat = form.get();
        return detail::bound(query(), flat, [&](std::uint8_t *room, std::size_t room_len, mysql_params_report *report) {
            return mysql_params_template_bind_anywhere(made_.get(), flat.room, flat.len, room, room_len, report);
        });
    }
    /* What bind_rows gives for the query in its mode. That finds the places once for all rows by itself, and not by the
     * template's table. Throws RowError. */
    template <typename Rows> std::vector<std::string> bind_rows(const Rows &rows) const
    {
        return detail::bound_rows(query(), rows, escapes_nothing());
    }
    /* The query, as long as the template lives. */
    std::string_view query() const
    {
        if (!made_)
            throw std::logic_error("mysql_params: the template was moved");
        std::size_t len = 0;
        const std::uint8_t *bytes = mysql_params_template_query(made_.get(), &len);
        return {reinterpret_cast<const char *>(bytes), len};
    }
    /* The mode for which the query is read and its values are written. */
    Mode mode() const noexcept { return mode_; }

private:
    struct Free {
        void operator()(mysql_params_template *made) const noexcept { mysql_params_template_free(made); }
    };
    static mysql_params_template *made_of(std::string_view query, Mode mode)
    {
        detail::need_processor();
        mysql_params_template *made =
            mysql_params_template_new_wide(detail::bytes_of(query), query.size(), mode == Mode::no_backslash_escapes);
        if (made == nullptr)
            throw std::bad_alloc();
        return made;
    }
    bool escapes_nothing() const noexcept { return mode_ == Mode::no_backslash_escapes; }

    std::unique_ptr<mysql_params_template, Free> made_;
    Mode mode_;
};

/* The names of a query. Throws Error for one with names and marks. */
inline Names names(std::string_view query, Mode mode = Mode::backslash_escapes)
{
    const std::string answer =
        detail::whole_answer(query.size() + 64, detail::NamesOf{query, mode == Mode::no_backslash_escapes});
    std::vector<std::string> strings = detail::strings_of(detail::bytes_of(answer), answer.size());
    Names found{std::move(strings.at(0)), {}};
    strings.erase(strings.begin());
    found.names = std::move(strings);
    return found;
}

/* The first construct of a query that servers read in different ways; nothing if the query is portable. */
inline std::optional<Unportable> first_unportable(std::string_view query, Mode mode = Mode::backslash_escapes)
{
    return detail::found(mysql_params_first_unportable_wide, query, mode);
}

/* The same, also of what the clients `mysql` and `mariadb` with `--comments` read or send otherwise. It judges the bytes
 * that it is given: ask it of a bound text too that has identifiers or keywords, or strings without backslash escapes. */
inline std::optional<Unportable> first_unportable_in_client(std::string_view query, Mode mode = Mode::backslash_escapes)
{
    return detail::found(mysql_params_first_unportable_in_client_wide, query, mode);
}

} // namespace mysql_params

#endif
