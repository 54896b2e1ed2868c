//! Templates: the copies and the threads of one, and that it keeps its own query. That a template gives what `bind` gives
//! is tried with the cases.
use mysql_params::{Error, Params, Template, bind_in};

#[test]
fn copies_and_threads() {
    let template = Template::new(b"SELECT ?, '?', ?").expect("a template");
    let copy = template.clone();
    assert_eq!(copy, template);
    assert_ne!(Template::new(b"SELECT ?").expect("a template"), template);
    std::thread::scope(|scope| {
        for number in 0..4 {
            let template = &template;
            scope.spawn(move || {
                for row in 0..200 {
                    let text = template.bind(&Params::Positional(&[number.into(), row.into()]));
                    let wanted = format!("SELECT {number}, '?', {row}");
                    assert_eq!(text, Ok(wanted.into_bytes()));
                }
            });
        }
    });
    drop(template);
    assert_eq!(
        copy.bind(&Params::Positional(&[1.into(), 2.into()])),
        Ok(b"SELECT 1, '?', 2".to_vec())
    );
}

#[test]
fn each_mode() {
    // In one mode the name stands in a string, in the other behind it.
    let query = br"'\' :a '";
    let named = [("a", 1.into())];
    for mode in [false, true] {
        let template = Template::new_in(query, mode).expect("a template");
        assert_eq!(template.query(), query);
        assert_eq!(template.no_backslash_escape(), mode);
        let params = Params::Named(&named);
        assert_eq!(template.bind(&params), bind_in(query, &params, mode));
    }
    assert_eq!(
        Template::new(query)
            .expect("a template")
            .bind(&Params::Empty),
        Ok(query.to_vec())
    );
    let template = Template::new_in(query, true).expect("a template");
    assert_eq!(
        template.bind(&Params::Named(&named)),
        Ok(br"'\' 1 '".to_vec())
    );
}

#[test]
fn many_places() {
    let query = vec!["?"; 1000].join(",");
    let template = Template::new(query.as_bytes()).expect("a template");
    let values = vec![7.into(); 1000];
    assert_eq!(
        template.bind(&Params::Positional(&values)),
        Ok(vec!["7"; 1000].join(",").into_bytes())
    );
    let error = Error::MarkCount {
        marks: 1000,
        values: 999,
    };
    assert_eq!(template.bind(&Params::Positional(&values[1..])), Err(error));
}
