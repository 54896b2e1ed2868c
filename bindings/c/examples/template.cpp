/* A template, a statement for each row, and a row that is refused, in C++. */
#include <iostream>
#include <mysql_params.hpp>

namespace sql = mysql_params;

int main()
{
    const sql::Template update("UPDATE t SET name = :name WHERE id = :id", sql::Mode::backslash_escapes);
    std::cout << update.bind({{"id", 1}, {"name", "it's"}}) << '\n';

    std::vector<sql::Form> rows;
    rows.push_back({{"id", 2}, {"name", "b"}});
    rows.push_back({{"id", 3}, {"nane", "c"}});
    try {
        update.bind_rows(rows);
    } catch (const sql::RowError &error) {
        for (const std::string &text : error.texts())
            std::cout << text << '\n';
        std::cout << error.number() << ": " << error.what() << '\n';
    }
}
