//! libxml2's XPath 1.0, as far as the benchmark asks for it: a view as an XML document, expressions compiled beforehand, and what they
//! reach from the root. The declarations are those of libxml2's headers `tree.h`, `parser.h`, `xpath.h` and `xpathInternals.h`.

use std::ffi::{c_char, c_int, c_long, c_void, CStr, CString};
use std::ptr;

/// The first fields of `xmlNode`.
#[repr(C)]
struct Node {
    private: *mut c_void,
    kind: c_int,
    name: *const c_char,
    children: *mut Node,
    last: *mut Node,
    parent: *mut Node,
    next: *mut Node,
}

#[repr(C)]
struct NodeSet {
    count: c_int,
    room: c_int,
    nodes: *mut *mut Node,
}

/// The first fields of `xmlXPathObject`.
#[repr(C)]
struct Object {
    kind: c_int,
    nodes: *mut NodeSet,
}

extern "C" {
    static xmlParserVersion: *const c_char;
    fn xmlReadMemory(
        text: *const c_char,
        size: c_int,
        url: *const c_char,
        encoding: *const c_char,
        options: c_int,
    ) -> *mut c_void;
    fn xmlFreeDoc(document: *mut c_void);
    fn xmlDocGetRootElement(document: *mut c_void) -> *mut Node;
    fn xmlXPathOrderDocElems(document: *mut c_void) -> c_long;
    fn xmlXPathNewContext(document: *mut c_void) -> *mut c_void;
    fn xmlXPathFreeContext(context: *mut c_void);
    fn xmlXPathSetContextNode(node: *mut Node, context: *mut c_void) -> c_int;
    fn xmlXPathCompile(text: *const c_char) -> *mut c_void;
    fn xmlXPathFreeCompExpr(expression: *mut c_void);
    fn xmlXPathCompiledEval(expression: *mut c_void, context: *mut c_void) -> *mut Object;
    fn xmlXPathFreeObject(object: *mut Object);
}

/// libxml2's own number, as 20914 for 2.9.14.
pub fn version() -> String {
    // SAFETY: it points to a constant string.
    unsafe { CStr::from_ptr(xmlParserVersion) }.to_string_lossy().into_owned()
}

/// The view as XML: a node of label n is an element `ln`, and there is nothing else.
pub fn xml(table: &[u8]) -> String {
    let mut text = String::new();
    let mut open: Vec<(usize, u8)> = Vec::new();
    let close = |text: &mut String, label: u8| text.push_str(&format!("</l{label}>"));
    for (at, record) in table.chunks_exact(4).enumerate() {
        let parent = usize::from(u16::from_le_bytes([record[2], record[3]]));
        while open.last().is_some_and(|(last, _)| *last != parent) {
            close(&mut text, open.pop().expect("one is open").1);
        }
        text.push_str(&format!("<l{}>", record[0]));
        open.push((at, record[0]));
    }
    open.iter().rev().for_each(|(_, label)| close(&mut text, *label));
    text
}

/// A view as libxml2 has it. Where it was made by `of`, every element knows its view position.
pub struct View {
    document: *mut c_void,
    context: *mut c_void,
}

/// Numbers an element and those below it, in document order, from so many on; gives the number of the next.
fn number(node: *mut Node, first: usize) -> usize {
    // SAFETY: the nodes are those of one document, which lives, and nothing else reads or writes them.
    unsafe {
        (*node).private = first as *mut c_void;
        let (mut next, mut child) = (first + 1, (*node).children);
        while !child.is_null() {
            next = number(child, next);
            child = (*child).next;
        }
        next
    }
}

impl View {
    /// The document of a view's table.
    pub fn of(table: &[u8]) -> View {
        let view = View::read(&xml(table));
        // SAFETY: the document lives and has a root.
        let nodes = number(unsafe { xmlDocGetRootElement(view.document) }, 0);
        assert_eq!(nodes, table.len() / 4, "the document has the view's nodes");
        view
    }

    /// A document from its text; its elements are ordered, as libxml2 advises for documents that stay as they are.
    pub fn read(text: &str) -> View {
        // SAFETY: the text is good for its length; each pointer that is given back is looked at before it is used.
        unsafe {
            let document = xmlReadMemory(text.as_ptr().cast(), text.len() as c_int, ptr::null(), ptr::null(), 0);
            assert!(!document.is_null(), "libxml2 reads the view");
            xmlXPathOrderDocElems(document);
            let context = xmlXPathNewContext(document);
            assert!(!context.is_null(), "libxml2 makes a context");
            assert_eq!(xmlXPathSetContextNode(xmlDocGetRootElement(document), context), 0, "it starts from the root");
            View { document, context }
        }
    }

    fn answer<T>(&self, expression: &Expression, take: impl FnOnce(&[*mut Node]) -> T) -> T {
        // SAFETY: context and expression live; the object is looked at before it is used, and freed once.
        unsafe {
            let object = xmlXPathCompiledEval(expression.0, self.context);
            assert!(!object.is_null(), "libxml2 answers");
            let set = (*object).nodes;
            let none = set.is_null() || (*set).count == 0;
            let taken = take(if none { &[] } else { std::slice::from_raw_parts((*set).nodes, (*set).count as usize) });
            xmlXPathFreeObject(object);
            taken
        }
    }

    /// How many nodes an expression reaches from the root.
    pub fn count(&self, expression: &Expression) -> usize {
        self.answer(expression, |nodes| nodes.len())
    }

    /// Their view positions, ascending.
    pub fn positions(&self, expression: &Expression) -> Vec<usize> {
        // SAFETY: the nodes are elements of the document, which were numbered.
        let position = |node: &*mut Node| unsafe { (**node).private } as usize;
        let mut positions: Vec<usize> = self.answer(expression, |nodes| nodes.iter().map(position).collect());
        positions.sort_unstable();
        positions
    }
}

impl Drop for View {
    fn drop(&mut self) {
        // SAFETY: both were made by `read` and are freed once.
        unsafe {
            xmlXPathFreeContext(self.context);
            xmlFreeDoc(self.document);
        }
    }
}

/// A compiled expression.
pub struct Expression(*mut c_void);

impl Expression {
    pub fn compiled(text: &str) -> Expression {
        let text = CString::new(text).expect("no zero byte");
        // SAFETY: the text ends in a zero byte.
        let expression = unsafe { xmlXPathCompile(text.as_ptr()) };
        assert!(!expression.is_null(), "libxml2 takes {text:?}");
        Expression(expression)
    }
}

impl Drop for Expression {
    fn drop(&mut self) {
        // SAFETY: it was made by `compiled` and is freed once.
        unsafe { xmlXPathFreeCompExpr(self.0) }
    }
}
