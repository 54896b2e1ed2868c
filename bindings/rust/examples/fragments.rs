//! What stands in a place beside one value: lists, rows, exact numbers, floats, names, assignments and keywords.
use mysql_params::{Date, Fragment, Fragments, Item, bind_fragments_str};

fn main() -> Result<(), Box<dyn std::error::Error>> {
    // A list, of whatever makes a value. An empty one is refused, since `IN ()` is no SQL.
    let names: Vec<String> = vec!["it's".into(), "b".into()];
    let list: Vec<&str> = names.iter().map(String::as_str).collect();
    let given = [("ids", vec![1, 2, 3].into()), ("names", list.into())];
    let text = bind_fragments_str(
        "id IN (:ids) OR name IN (:names)",
        &Fragments::Named(&given),
    )?;
    assert_eq!(text, r"id IN (1, 2, 3) OR name IN ('it\'s', 'b')");

    // Many rows: a `Vec` of tuples of up to eight, or `Fragment::Rows`. A decimal is its digits.
    let day = Date {
        year: 2024,
        month: 2,
        day: 29,
        ..Date::default()
    };
    let rows = vec![
        (1, "a", Item::Decimal("9.99"), Some(day)),
        (2, "b", Item::Decimal("0.10"), None),
    ];
    let text = bind_fragments_str(
        "INSERT INTO item VALUES ?",
        &Fragments::Positional(&[rows.into()]),
    )?;
    assert_eq!(
        text,
        "INSERT INTO item VALUES (1, 'a', 9.99, '2024-02-29'), (2, 'b', 0.10, NULL)"
    );

    // A column that a user chooses among yours, and the order, which is a keyword of the program.
    let choice = "price";
    let column = ["name", "price"]
        .into_iter()
        .find(|column| *column == choice)
        .ok_or("no such column")?;
    let given = [
        ("column", Fragment::Identifier(column)),
        ("order", Fragment::Keyword("DESC")),
    ];
    let text = bind_fragments_str(
        "SELECT * FROM item ORDER BY :column :order",
        &Fragments::Named(&given),
    )?;
    assert_eq!(text, "SELECT * FROM item ORDER BY `price` DESC");

    // An exact number is written bare, so that a server computes it exactly. An `i128` is one by `into()`. A float is a
    // DOUBLE to a server.
    let given = [
        ("more", Fragment::Decimal("0.01")),
        ("least", 12345678901234567890123_i128.into()),
        ("x", 0.25.into()),
    ];
    let text = bind_fragments_str(
        "price + :more > :least AND x < :x",
        &Fragments::Named(&given),
    )?;
    assert_eq!(
        text,
        "price + 0.01 > 12345678901234567890123 AND x < 0.25e0"
    );

    // The table of a tenant. A point or a backquote in a name is a part of it.
    let given = [Fragment::Qualified(vec!["shop", "acme`2"]), 7.into()];
    let text = bind_fragments_str(
        "SELECT * FROM ? WHERE id = ?",
        &Fragments::Positional(&given),
    )?;
    assert_eq!(text, "SELECT * FROM `shop`.`acme``2` WHERE id = 7");

    // Columns with commas between them, and what columns are set to. One in another is `["item", "price"]`.
    let columns = Fragment::identifiers(["id", "name"]);
    let set = Fragment::assignments([("name", "it's".into()), ("price", Item::Decimal("9.99"))]);
    let given = [
        ("columns", columns),
        ("row", vec![Item::from(7), "a".into()].into()),
        ("set", set),
    ];
    let query = "INSERT INTO item (:columns) VALUES (:row) ON DUPLICATE KEY UPDATE :set";
    let text = bind_fragments_str(query, &Fragments::Named(&given))?;
    let start = "INSERT INTO item (`id`, `name`) VALUES (7, 'a') ON DUPLICATE KEY UPDATE";
    assert_eq!(text, format!(r"{start} `name` = 'it\'s', `price` = 9.99"));
    Ok(())
}
