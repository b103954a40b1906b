//! libraptor2: the few calls of `raptor2.h` that reading takes, and the only `unsafe` of these tools.
//!
//! A world with one parser lives for one document. The library is entered by one thread at a time, for it shares state with libxml2.

use crate::format::Format;
use crate::triple::{Object, Resource, Triple};
use std::error::Error;
use std::ffi::{c_char, c_int, c_uchar, c_uint, c_void, CStr, CString};
use std::fmt;
use std::sync::{Mutex, PoisonError};

/// What a text holds.
#[derive(Clone, PartialEq, Eq, Debug, Default)]
pub struct Document {
    /// Its triples, as they stand.
    pub triples: Vec<Triple>,
    /// What the reader warns of.
    pub warnings: Vec<String>,
}

/// A text that cannot be read.
#[derive(Clone, PartialEq, Eq, Debug)]
pub struct SyntaxError {
    /// The line, where it is known.
    pub line: Option<u32>,
    /// What is wrong.
    pub message: String,
}

impl fmt::Display for SyntaxError {
    fn fmt(&self, f: &mut fmt::Formatter<'_>) -> fmt::Result {
        match self.line {
            Some(line) => write!(f, "line {line}: {}", self.message),
            None => f.write_str(&self.message),
        }
    }
}

impl Error for SyntaxError {}

/// `raptor_world`, `raptor_parser` and `raptor_uri`: known by their addresses only.
#[repr(C)]
struct Opaque {
    _private: [u8; 0],
}

#[repr(C)]
#[derive(Clone, Copy)]
struct RaptorLiteral {
    string: *const c_uchar,
    string_len: c_uint,
    datatype: *mut Opaque,
    language: *const c_uchar,
    language_len: c_uchar,
}

#[repr(C)]
#[derive(Clone, Copy)]
struct RaptorBlank {
    string: *const c_uchar,
    string_len: c_uint,
}

#[repr(C)]
union RaptorValue {
    uri: *mut Opaque,
    literal: RaptorLiteral,
    blank: RaptorBlank,
}

#[repr(C)]
struct RaptorTerm {
    world: *mut Opaque,
    usage: c_int,
    kind: c_int,
    value: RaptorValue,
}

#[repr(C)]
struct RaptorStatement {
    world: *mut Opaque,
    usage: c_int,
    subject: *const RaptorTerm,
    predicate: *const RaptorTerm,
    object: *const RaptorTerm,
    graph: *const RaptorTerm,
}

#[repr(C)]
struct RaptorLocator {
    uri: *mut Opaque,
    file: *const c_char,
    line: c_int,
    column: c_int,
    byte: c_int,
}

#[repr(C)]
struct RaptorLogMessage {
    code: c_int,
    domain: c_int,
    level: c_int,
    locator: *const RaptorLocator,
    text: *const c_char,
}

/// The version of the header that these declarations follow.
const VERSION: c_uint = 20015;
const TERM_URI: c_int = 1;
const TERM_LITERAL: c_int = 2;
const TERM_BLANK: c_int = 4;
const LOG_WARN: c_int = 4;
const LOG_ERROR: c_int = 5;
const OPTION_NO_NET: c_int = 15;
const OPTION_NO_FILE: c_int = 38;

type StatementHandler = extern "C" fn(*mut c_void, *const RaptorStatement);
type LogHandler = extern "C" fn(*mut c_void, *const RaptorLogMessage);

extern "C" {
    fn raptor_new_world_internal(version: c_uint) -> *mut Opaque;
    fn raptor_world_open(world: *mut Opaque) -> c_int;
    fn raptor_free_world(world: *mut Opaque);
    fn raptor_world_set_log_handler(world: *mut Opaque, data: *mut c_void, handler: LogHandler) -> c_int;
    fn raptor_new_parser(world: *mut Opaque, name: *const c_char) -> *mut Opaque;
    fn raptor_free_parser(parser: *mut Opaque);
    fn raptor_parser_set_statement_handler(parser: *mut Opaque, data: *mut c_void, handler: StatementHandler);
    fn raptor_parser_set_option(parser: *mut Opaque, option: c_int, text: *const c_char, number: c_int) -> c_int;
    fn raptor_parser_parse_start(parser: *mut Opaque, base: *mut Opaque) -> c_int;
    fn raptor_parser_parse_chunk(parser: *mut Opaque, bytes: *const c_uchar, length: usize, end: c_int) -> c_int;
    fn raptor_new_uri(world: *mut Opaque, text: *const c_uchar) -> *mut Opaque;
    fn raptor_free_uri(uri: *mut Opaque);
    fn raptor_uri_as_string(uri: *mut Opaque) -> *const c_uchar;
}

/// One thread at a time.
static ENTRY: Mutex<()> = Mutex::new(());

/// What the handlers fill.
#[derive(Default)]
struct Collected {
    document: Document,
    error: Option<SyntaxError>,
}

/// A text of the library, copied.
///
/// # Safety
/// `text` is null or ends with a zero.
unsafe fn copied(text: *const c_uchar) -> String {
    if text.is_null() {
        return String::new();
    }
    // SAFETY: not null, and ended by a zero as the caller promises
    unsafe { CStr::from_ptr(text.cast()) }.to_string_lossy().into_owned()
}

/// # Safety
/// `uri` is null or a URI of the library.
unsafe fn uri_text(uri: *mut Opaque) -> Option<String> {
    // SAFETY: a URI of the library has a text that ends with a zero
    (!uri.is_null()).then(|| unsafe { copied(raptor_uri_as_string(uri)) })
}

/// # Safety
/// `term` is null or a term of the library.
unsafe fn object(term: *const RaptorTerm) -> Option<Object> {
    // SAFETY: null or a good term, of which `kind` says which value is there
    unsafe {
        let term = term.as_ref()?;
        match term.kind {
            TERM_URI => Some(Object::Resource(Resource::Iri(uri_text(term.value.uri)?))),
            TERM_BLANK => Some(Object::Resource(Resource::Blank(copied(term.value.blank.string)))),
            TERM_LITERAL => {
                let RaptorLiteral { string, language, datatype, .. } = term.value.literal;
                let language = (!language.is_null()).then(|| copied(language));
                Some(Object::Literal { text: copied(string), language, datatype: uri_text(datatype) })
            }
            _ => None,
        }
    }
}

fn resource(object: Option<Object>) -> Option<Resource> {
    match object {
        Some(Object::Resource(resource)) => Some(resource),
        _ => None,
    }
}

extern "C" fn take_statement(data: *mut c_void, statement: *const RaptorStatement) {
    // SAFETY: `data` is the `Collected` that `read` registered and does not touch meanwhile; the statement is good for this call
    let (collected, terms) = unsafe {
        let statement = &*statement;
        let terms =
            [statement.subject, statement.predicate, statement.object, statement.graph].map(|term| object(term));
        (&mut *data.cast::<Collected>(), terms)
    };
    let [subject, property, object, graph] = terms;
    if let (Some(subject), Some(Resource::Iri(property)), Some(object)) =
        (resource(subject), resource(property), object)
    {
        collected.document.triples.push(Triple { subject, property, object, graph: resource(graph) });
    }
}

extern "C" fn take_message(data: *mut c_void, message: *const RaptorLogMessage) {
    // SAFETY: as above; the message and its locator are good for this call
    let (collected, level, text, line) = unsafe {
        let message = &*message;
        let line = message.locator.as_ref().map_or(-1, |locator| locator.line);
        (&mut *data.cast::<Collected>(), message.level, copied(message.text.cast()), line)
    };
    let line = u32::try_from(line).ok().filter(|line| *line > 0);
    let error = SyntaxError { line, message: text };
    if level >= LOG_ERROR {
        collected.error.get_or_insert(error);
    } else if level == LOG_WARN {
        collected.document.warnings.push(error.to_string());
    }
}

fn failed(what: &str) -> SyntaxError {
    SyntaxError { line: None, message: what.to_owned() }
}

/// Reads a text whose relative IRIs stand below a base. The reader fetches nothing, neither from the network nor from files.
pub fn read(bytes: &[u8], format: Format, base: &str) -> Result<Document, SyntaxError> {
    let (Ok(base), Ok(name)) = (CString::new(base), CString::new(format.name())) else {
        return Err(failed("the base IRI has a zero byte"));
    };
    let _entered = ENTRY.lock().unwrap_or_else(PoisonError::into_inner);
    let mut collected = Collected::default();
    let data: *mut c_void = (&raw mut collected).cast();
    // SAFETY: each object is used only after it was made, and freed after all that stand on it; `collected` outlives the world;
    // texts end with a zero; the bytes are lent with their length
    let status = unsafe {
        let world = raptor_new_world_internal(VERSION);
        if world.is_null() {
            return Err(failed("libraptor2 does not start"));
        }
        raptor_world_set_log_handler(world, data, take_message);
        let status = if raptor_world_open(world) == 0 { parse(world, &name, &base, bytes, data) } else { 1 };
        raptor_free_world(world);
        status
    };
    match collected.error {
        Some(error) => Err(error),
        None if status != 0 => Err(failed("the text cannot be read")),
        None => Ok(collected.document),
    }
}

/// # Safety
/// `world` is open, and `data` is what both handlers take.
unsafe fn parse(world: *mut Opaque, name: &CStr, base: &CStr, bytes: &[u8], data: *mut c_void) -> c_int {
    // SAFETY: as above
    unsafe {
        let (parser, uri) = (raptor_new_parser(world, name.as_ptr()), raptor_new_uri(world, base.as_ptr().cast()));
        let mut status = 1;
        if !parser.is_null() && !uri.is_null() {
            raptor_parser_set_option(parser, OPTION_NO_NET, std::ptr::null(), 1);
            raptor_parser_set_option(parser, OPTION_NO_FILE, std::ptr::null(), 1);
            raptor_parser_set_statement_handler(parser, data, take_statement);
            status = raptor_parser_parse_start(parser, uri);
            if status == 0 {
                status = raptor_parser_parse_chunk(parser, bytes.as_ptr(), bytes.len(), 1);
            }
        }
        if !uri.is_null() {
            raptor_free_uri(uri);
        }
        if !parser.is_null() {
            raptor_free_parser(parser);
        }
        status
    }
}
