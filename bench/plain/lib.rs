//! Plain Rust for the archive's task, written by hand for speed. It is a crate of its own, so that
//! its machine code is the same whatever the driver does.

pub mod all_fragments;
pub mod bind;
pub mod brackets;
pub mod client;
pub mod form;
pub mod fragments;
pub mod portable;
pub mod query;
pub mod room;
pub mod rows;
pub mod search;
pub mod template;
pub mod value;

use bind::BindError;
use fragments::Fragment;
use room::Report;
use search::{Table, Wide};
use template::Template;
use value::Params;

/// A call of `names`: a query, and the lent room.
pub type Names = fn(&[u8], &mut [u8]) -> (i32, Report);
/// A call of `bind`: a query, a flat form, and the lent room.
pub type BindForm = fn(&[u8], &[u8], &mut [u8]) -> (i32, Report);
/// Binding in Rust's own terms.
pub type Bind = fn(&[u8], &Params) -> Result<Vec<u8>, BindError>;

/// The making of a template.
pub type MakeTemplate = for<'q> fn(&'q [u8]) -> Template<'q>;
/// A call of binding by a template: the flat form, and the lent room.
pub type BindTemplateForm = fn(&Template, &[u8], &mut [u8]) -> (i32, Report);
/// Binding by a template in Rust's own terms.
pub type BindTemplate = fn(&Template, &Params) -> Result<Vec<u8>, BindError>;

/// Binding one list or rows in Rust's own terms.
pub type BindFragment = fn(&[u8], &Fragment) -> Option<Vec<u8>>;

/// One kind of plain Rust.
#[derive(Clone, Copy)]
pub struct Kind {
    pub names: Names,
    pub bind_form: BindForm,
    pub bind: Bind,
    /// The same two with steady literals.
    pub bind_form_anywhere: BindForm,
    pub bind_anywhere: Bind,
    pub template: MakeTemplate,
    pub bind_template_form: BindTemplateForm,
    pub bind_template: BindTemplate,
    /// The same two with one list or rows.
    pub bind_fragment_form: BindForm,
    pub bind_fragment: BindFragment,
}

/// The calls by one way to search. They aren't generic, so that they are compiled in this crate.
macro_rules! kind {
    ($search:ty) => {{
        fn names(query: &[u8], room: &mut [u8]) -> (i32, Report) {
            room::names::<$search>(query, room)
        }
        fn bind_form(query: &[u8], form: &[u8], room: &mut [u8]) -> (i32, Report) {
            room::bind_form(form, room, |params| bind(query, params))
        }
        fn bind(query: &[u8], params: &Params) -> Result<Vec<u8>, BindError> {
            bind::bind::<$search>(query, params)
        }
        fn bind_form_anywhere(query: &[u8], form: &[u8], room: &mut [u8]) -> (i32, Report) {
            room::bind_form(form, room, |params| bind_anywhere(query, params))
        }
        fn bind_anywhere(query: &[u8], params: &Params) -> Result<Vec<u8>, BindError> {
            bind::bind_anywhere::<$search>(query, params)
        }
        fn template(query: &[u8]) -> Template<'_> {
            Template::new::<$search>(query)
        }
        fn bind_template(template: &Template, params: &Params) -> Result<Vec<u8>, BindError> {
            template.bind::<$search>(params)
        }
        fn bind_template_form(template: &Template, form: &[u8], room: &mut [u8]) -> (i32, Report) {
            room::bind_form(form, room, |params| bind_template(template, params))
        }
        fn bind_fragment(query: &[u8], fragment: &Fragment) -> Option<Vec<u8>> {
            fragments::bind::<$search>(query, fragment)
        }
        fn bind_fragment_form(query: &[u8], form: &[u8], room: &mut [u8]) -> (i32, Report) {
            fragments::bind_form::<$search>(query, form, room)
        }
        Kind {
            names,
            bind_form,
            bind,
            bind_form_anywhere,
            bind_anywhere,
            template,
            bind_template_form,
            bind_template,
            bind_fragment_form,
            bind_fragment,
        }
    }};
}

/// One byte after the other, by tables.
pub const TABLE: Kind = kind!(Table);

/// 16 bytes at once.
pub const WIDE: Kind = kind!(Wide);
