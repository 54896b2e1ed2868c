/* What a place takes besides one value, in C++. */
#include <iostream>
#include <mysql_params.hpp>

namespace sql = mysql_params;

int main()
{
    // The table of a tenant, rows, an exact number and a floating-point number.
    using Row = std::vector<sql::Value>;
    sql::Form item;
    item.append_qualified("table", {"shop", "item"});
    item.append_rows("rows", std::vector<Row>{{1, "a", sql::Decimal("9.99"), 0.5}, {2, "b", sql::Decimal("0.10"), nullptr}});
    std::cout << sql::bind_fragments_anywhere("INSERT INTO :table VALUES :rows", item) << '\n';

    // The columns of an INSERT, and what columns are set to. A column of a table is {"item", "price"}.
    sql::Form changed;
    changed.append_identifiers("columns", {"id", "name"}).append_assignments("set", {{"name", "c"}, {"price", 7}});
    std::cout << sql::bind_fragments_anywhere("INSERT INTO t (:columns) VALUES (1, '') ON DUPLICATE KEY UPDATE :set", changed) << '\n';
}
