//! The nodes of a tree that is given as text. Its constructors are those of the definition of declarations, with their
//! fields in the same order. A `Lambda` has a `Closure` as its only field, whose number isn't used.

use crate::extracted::cxx_printer::Symbol;
use crate::extracted::cxx_tree::{
    Arena, Clauses, Cv, Declaration, List, Node, NodeText, Plain, Prec, RefQual, Signature, Std, Stop,
};
use crate::rattle::alloc::Global;
use crate::value::Value;

/// What stands before the function of a block.
const BLOCK: &[u8] = b"invocation function for block in ";

/// The texts that are others in GNU's style.
const GNU: [(&[u8], &[u8]); 5] = [
    (b"thread-local wrapper routine for ", b"TLS wrapper function for "),
    (b"thread-local initialization routine for ", b"TLS init function for "),
    (b"decltype", b"decltype "),
    (b" complex", b" _Complex"),
    (b" imaginary", b" _Imaginary"),
];

/// Makes the nodes of a tree, with what stands at its top for a block or a suffix.
pub fn made(arena: &mut Arena, tree: &Value) -> Result<Symbol, Stop> {
    let mut maker = Maker { arena };
    match (tree.name(), tree.fields()) {
        ("DotSuffix", [tree, suffix]) => {
            let suffix = Some(maker.text(suffix)?);
            Ok(Symbol { tree: maker.tree(tree)?, is_block: false, suffix })
        }
        ("Prefixed", [word, tree, _]) if word.bytes() == BLOCK => {
            Ok(Symbol { tree: maker.tree(tree)?, is_block: true, suffix: None })
        }
        _ => Ok(Symbol { tree: maker.tree(tree)?, is_block: false, suffix: None }),
    }
}

/// The number of what has a count, from 1: `1` without digits, else 2 more than they say.
fn ordinal(count: &[u8]) -> String {
    let digits = String::from_utf8_lossy(count.strip_prefix(b"n").unwrap_or(count));
    if digits.is_empty() { "1".into() } else { (digits.parse::<u128>().expect("a number") + 2).to_string() }
}

fn precedence(value: &Value) -> Prec {
    match value.name() {
        "Primary" => Prec::Primary,
        "Postfix" => Prec::Postfix,
        "Unary" => Prec::Unary,
        "Cast" => Prec::Cast,
        "PtrMem" => Prec::PtrMem,
        "Multiplicative" => Prec::Multiplicative,
        "Additive" => Prec::Additive,
        "Shift" => Prec::Shift,
        "Spaceship" => Prec::Spaceship,
        "Relational" => Prec::Relational,
        "Equality" => Prec::Equality,
        "And" => Prec::And,
        "Xor" => Prec::Xor,
        "Ior" => Prec::Ior,
        "AndIf" => Prec::AndIf,
        "OrIf" => Prec::OrIf,
        "Conditional" => Prec::Conditional,
        "Assign" => Prec::Assign,
        "Comma" => Prec::Comma,
        other => panic!("no precedence: {other}"),
    }
}

fn qualifiers(value: &Value) -> Cv {
    let [is_const, is_volatile, is_restrict] = value.fields() else { panic!("no qualifiers") };
    Cv { is_const: is_const.is_true(), is_volatile: is_volatile.is_true(), is_restrict: is_restrict.is_true() }
}

fn reference(value: &Value) -> RefQual {
    match value.name() {
        "None" => RefQual::None,
        "Lvalue" => RefQual::Lvalue,
        "Rvalue" => RefQual::Rvalue,
        other => panic!("no reference qualifier: {other}"),
    }
}

fn abbreviation(value: &Value) -> Std {
    match value.name() {
        "Allocator" => Std::Allocator,
        "BasicString" => Std::BasicString,
        "String" => Std::String,
        "Istream" => Std::Istream,
        "Ostream" => Std::Ostream,
        "Iostream" => Std::Iostream,
        other => panic!("no abbreviation: {other}"),
    }
}

/// Makes nodes in an arena.
struct Maker<'a> {
    arena: &'a mut Arena,
}

impl Maker<'_> {
    fn text(&mut self, value: &Value) -> Result<NodeText, Stop> {
        Ok(self.arena.text(value.bytes())?)
    }

    /// A text, and that of GNU's style.
    fn texts(&mut self, value: &Value) -> Result<(NodeText, NodeText), Stop> {
        let llvm = self.text(value)?;
        match GNU.iter().find(|(text, _)| *text == value.bytes()) {
            Some((_, text)) => Ok((llvm, self.arena.text(text)?)),
            None => Ok((llvm, llvm)),
        }
    }

    /// A count, and its number in GNU's style.
    fn count(&mut self, value: &Value) -> Result<(NodeText, NodeText), Stop> {
        Ok((self.text(value)?, self.arena.text(ordinal(value.bytes()).as_bytes())?))
    }

    fn list(&mut self, value: &Value) -> Result<List, Stop> {
        let from = self.arena.pending_len();
        for item in value.items() {
            let node = self.tree(item)?;
            self.arena.add(node)?;
        }
        self.arena.list_from(from)
    }

    fn option(&mut self, value: &Value) -> Result<Option<u32>, Stop> {
        value.option().map(|tree| self.tree(tree)).transpose()
    }

    fn lists(&mut self, value: &Value) -> Result<Option<List>, Stop> {
        value.option().map(|trees| self.list(trees)).transpose()
    }

    fn plain(&mut self, plain: Plain) -> Result<u32, Stop> {
        self.arena.push(Node::Plain(plain))
    }

    fn declaration(&mut self, declaration: Declaration) -> Result<u32, Stop> {
        self.arena.push(Node::Declaration(declaration))
    }

    /// The node of a tree.
    fn tree(&mut self, value: &Value) -> Result<u32, Stop> {
        let (name, fields) = (value.name(), value.fields());
        let made = match self.name(name, fields)? {
            Some(node) => Some(node),
            None => match self.ty(name, fields)? {
                Some(node) => Some(node),
                None => self.expression(name, fields)?,
            },
        };
        Ok(made.unwrap_or_else(|| panic!("no constructor with {} fields: {name}", fields.len())))
    }

    /// The node of a name, if the constructor is that of one.
    fn name(&mut self, name: &str, fields: &[Value]) -> Result<Option<u32>, Stop> {
        Ok(Some(match (name, fields) {
            ("Name", [text]) => {
                self.arena.make_name(text.bytes())?
            }
            ("Word", [llvm, gnu]) => {
                let (llvm, gnu) = (self.text(llvm)?, self.text(gnu)?);
                self.arena.make_word(llvm, gnu)?
            }
            ("Literal", [llvm, gnu]) => {
                let (llvm, gnu) = (self.text(llvm)?, self.text(gnu)?);
                self.arena.make_literal(llvm, gnu)?
            }
            ("LambdaParam", [_, llvm, gnu]) => {
                let (llvm, gnu) = (self.text(llvm)?, self.text(gnu)?);
                self.arena.make_lambda_param(llvm, gnu)?
            }
            ("DefaultArg", [e, count]) => {
                let (e, (count, ordinal)) = (self.tree(e)?, self.count(count)?);
                self.arena.make_default_arg(e, count, ordinal)?
            }
            ("Nested", [scope, n]) => {
                let scope = self.tree(scope)?;
                let node = match (n.name(), n.fields()) {
                    ("Name", [text]) => Plain::ScopedName(scope, self.text(text)?),
                    _ => Plain::Scoped(false, scope, self.tree(n)?),
                };
                self.plain(node)?
            }
            ("Friend", [scope, n]) => {
                let node = Plain::Scoped(true, self.tree(scope)?, self.tree(n)?);
                self.plain(node)?
            }
            ("ModuleName", [parent, n, is_partition]) => {
                let (parent, n) = (self.option(parent)?, self.tree(n)?);
                self.arena.make_module_name(parent, n, is_partition.is_true())?
            }
            ("InModule", [n, module]) => {
                let node = Plain::InModule(self.tree(n)?, self.tree(module)?);
                self.plain(node)?
            }
            ("WithArgs", [n, args]) => {
                let node = Plain::WithArgs(self.tree(n)?, self.list(args)?);
                self.plain(node)?
            }
            ("AbiTag", [n, tag]) => {
                let node = Plain::AbiTag(self.tree(n)?, self.text(tag)?);
                self.plain(node)?
            }
            ("StdName", [std, is_expanded]) => self.plain(Plain::StdName(abbreviation(std), is_expanded.is_true()))?,
            ("CtorDtor", [class, is_destructor]) => {
                let class = self.text(class)?;
                self.arena.make_ctor_dtor(class, is_destructor.is_true())?
            }
            ("DtorName", [t]) => {
                let t = self.tree(t)?;
                self.arena.make_dtor_name(t)?
            }
            ("Unnamed", [count]) => {
                let (count, ordinal) = self.count(count)?;
                self.arena.make_unnamed(count, ordinal)?
            }
            ("Closure", [declarations, before, params, behind, count]) => {
                let (declarations, before) = (self.list(declarations)?, self.option(before)?);
                let (params, behind) = (self.list(params)?, self.option(behind)?);
                let (count, ordinal) = self.count(count)?;
                let signature = Signature { declarations, before, params, behind };
                self.arena.make_closure(Global, signature, count, ordinal)?
            }
            ("Bindings", [names]) => {
                let names = self.list(names)?;
                self.arena.make_bindings(names)?
            }
            _ => return Ok(None),
        }))
    }

    /// The node of a type, a declaration, a pack or an encoding, if the constructor is that of one.
    fn ty(&mut self, name: &str, fields: &[Value]) -> Result<Option<u32>, Stop> {
        Ok(Some(match (name, fields) {
            ("Qualified", [t, cv]) => {
                let node = Node::Qualified(self.tree(t)?, qualifiers(cv));
                self.arena.push(node)?
            }
            ("Pointer", [t]) => {
                let node = Node::Pointer(self.tree(t)?);
                self.arena.push(node)?
            }
            ("Reference", [t, is_lvalue]) => {
                let node = Node::Reference(self.tree(t)?, is_lvalue.is_true());
                self.arena.push(node)?
            }
            ("MemberPointer", [class, t]) => {
                let node = Node::MemberPointer(self.tree(class)?, self.tree(t)?);
                self.arena.push(node)?
            }
            ("Array", [t, dimension]) => {
                let (t, dimension) = (self.tree(t)?, self.option(dimension)?);
                self.arena.make_array(t, dimension)?
            }
            ("Function", [ret, params, cv, ref_qual, exception]) => {
                let (ret, params) = (self.tree(ret)?, self.list(params)?);
                let exception = self.option(exception)?;
                self.arena.make_function_type(ret, params, qualifiers(cv), reference(ref_qual), exception)?
            }
            ("Suffixed", [t, word]) => {
                let (t, (llvm, gnu)) = (self.tree(t)?, self.texts(word)?);
                self.arena.make_suffixed(t, llvm, gnu)?
            }
            ("VendorQualified", [t, qualifier, args]) => {
                let (t, qualifier, args) = (self.tree(t)?, self.text(qualifier)?, self.lists(args)?);
                self.arena.make_vendor_qualified(t, qualifier, args)?
            }
            ("ObjcProtocol", [t, protocol]) => {
                let node = Plain::ObjcProtocol(self.tree(t)?, self.text(protocol)?);
                self.plain(node)?
            }
            ("Vector", [t, dimension]) => {
                let (t, dimension) = (self.tree(t)?, self.option(dimension)?);
                self.arena.make_vector(t, dimension)?
            }
            ("TypeParam", [constraint, n]) => {
                let node = Declaration::TypeParam(self.tree(constraint)?, self.tree(n)?);
                self.declaration(node)?
            }
            ("NonTypeParam", [n, t]) => {
                let node = Declaration::NonTypeParam(self.tree(n)?, self.tree(t)?);
                self.declaration(node)?
            }
            ("TemplateParam", [n, declarations, constraint]) => {
                let (n, declarations) = (self.tree(n)?, self.list(declarations)?);
                let constraint = self.option(constraint)?;
                self.arena.make_template_param(n, declarations, constraint)?
            }
            ("PackParam", [d]) => {
                let node = Declaration::PackParam(self.tree(d)?);
                self.declaration(node)?
            }
            ("Pack", [trees]) => {
                let node = Node::Pack(self.list(trees)?);
                self.arena.push(node)?
            }
            ("List", [trees]) => {
                let node = Plain::Several(self.list(trees)?);
                self.plain(node)?
            }
            ("Expansion", [t]) => {
                let node = Plain::Expansion(self.tree(t)?);
                self.plain(node)?
            }
            ("FunctionEncoding", [ret, n, params, enable_if, constraint, cv, ref_qual]) => {
                let (ret, n, params) = (self.option(ret)?, self.tree(n)?, self.list(params)?);
                let (enable_if, constraint) = (self.lists(enable_if)?, self.option(constraint)?);
                let clauses = Clauses { enable_if, constraint };
                self.arena.make_encoding(ret, n, params, qualifiers(cv), reference(ref_qual), clauses)?
            }
            ("Data", [n]) => {
                let node = Plain::Data(self.tree(n)?);
                self.plain(node)?
            }
            ("CtorVtable", [a, b]) => {
                let (a, b) = (self.tree(a)?, self.tree(b)?);
                self.arena.make_ctor_vtable(a, b)?
            }
            ("Prefixed", [word, t, prec]) => {
                let ((llvm, gnu), t) = (self.texts(word)?, self.tree(t)?);
                self.arena.make_prefixed(llvm, gnu, t, precedence(prec))?
            }
            ("Enclosing", [word, t, _]) if word.bytes() == b"sizeof..." || word.bytes() == b"sizeof... " => {
                let pack = self.tree(t)?;
                self.arena.make_pack_count(word.bytes().ends_with(b" "), pack)?
            }
            ("Enclosing", [word, t, prec]) => {
                let ((llvm, gnu), t) = (self.texts(word)?, self.tree(t)?);
                self.arena.make_enclosing(llvm, gnu, t, precedence(prec))?
            }
            _ => return Ok(None),
        }))
    }

    /// The node of an expression, if the constructor is that of one.
    fn expression(&mut self, name: &str, fields: &[Value]) -> Result<Option<u32>, Stop> {
        Ok(Some(match (name, fields) {
            ("Binary", [a, symbol, b, prec]) => {
                let (a, symbol, b) = (self.tree(a)?, self.text(symbol)?, self.tree(b)?);
                self.arena.make_binary(a, symbol, b, precedence(prec))?
            }
            ("Subscript", [a, index]) => {
                let (a, index) = (self.tree(a)?, self.tree(index)?);
                self.arena.make_subscript(a, index)?
            }
            ("PostfixOp", [a, symbol]) => {
                let (a, symbol) = (self.tree(a)?, self.text(symbol)?);
                self.arena.make_postfix_op(a, symbol)?
            }
            ("PrefixOp", [symbol, a, prec]) => {
                let (symbol, a) = (self.text(symbol)?, self.tree(a)?);
                self.arena.make_prefix_op(symbol, a, precedence(prec))?
            }
            ("Conditional", [a, b, c]) => {
                let (a, b, c) = (self.tree(a)?, self.tree(b)?, self.tree(c)?);
                self.arena.make_conditional(a, b, c)?
            }
            ("Member", [a, symbol, b, prec]) => {
                let (a, symbol, b) = (self.tree(a)?, self.text(symbol)?, self.tree(b)?);
                self.arena.make_member(a, symbol, b, precedence(prec))?
            }
            ("Subobject", [t, e, offset]) => {
                let (t, e, offset) = (self.tree(t)?, self.tree(e)?, self.text(offset)?);
                self.arena.make_subobject(t, e, offset)?
            }
            ("NamedCast", [word, t, e]) => {
                let (word, t, e) = (self.text(word)?, self.tree(t)?, self.tree(e)?);
                self.arena.make_named_cast(word, t, e)?
            }
            ("Call", [function, args]) => {
                let (function, args) = (self.tree(function)?, self.list(args)?);
                self.arena.make_call(function, args)?
            }
            ("New", [placement, t, inits, is_global, is_array]) => {
                let (placement, t, inits) = (self.list(placement)?, self.tree(t)?, self.list(inits)?);
                let (is_global, is_array) = (is_global.is_true(), is_array.is_true());
                self.arena.make_new(placement, t, inits, is_global, is_array)?
            }
            ("Conversion", [t, es, prec]) => {
                let (t, es) = (self.tree(t)?, self.list(es)?);
                self.arena.make_conversion(t, es, precedence(prec))?
            }
            ("InitList", [t, es]) => {
                let (t, es) = (self.option(t)?, self.list(es)?);
                self.arena.make_init_list(t, es)?
            }
            ("Designated", [d, e, is_index]) => {
                let (d, e) = (self.tree(d)?, self.tree(e)?);
                self.arena.make_designated(d, e, is_index.is_true())?
            }
            ("DesignatedRange", [first, last, e]) => {
                let (first, last, e) = (self.tree(first)?, self.tree(last)?, self.tree(e)?);
                self.arena.make_designated_range(first, last, e)?
            }
            ("Fold", [is_left, symbol, pack, init]) => {
                let (symbol, pack, init) = (self.text(symbol)?, self.tree(pack)?, self.option(init)?);
                self.arena.make_fold(is_left.is_true(), symbol, pack, init)?
            }
            ("StringLiteral", [t]) => {
                let t = self.tree(t)?;
                self.arena.make_string_literal(t)?
            }
            ("Lambda", [closure]) => {
                let [declarations, before, params, behind, _] = closure.fields() else { panic!("no closure") };
                let (declarations, before) = (self.list(declarations)?, self.option(before)?);
                let (params, behind) = (self.list(params)?, self.option(behind)?);
                let signature = Signature { declarations, before, params, behind };
                self.arena.make_lambda(Global, signature)?
            }
            ("TypedLiteral", [t, value]) => {
                let t = self.tree(t)?;
                self.arena.make_typed_literal(t, value.bytes())?
            }
            ("Requires", [params, requirements]) => {
                let (params, requirements) = (self.list(params)?, self.list(requirements)?);
                self.arena.make_requires(params, requirements)?
            }
            ("ExprRequirement", [e, is_noexcept, t]) => {
                let (e, t) = (self.tree(e)?, self.option(t)?);
                self.arena.make_expr_requirement(e, is_noexcept.is_true(), t)?
            }
            ("Requirement", [word, t]) => {
                let (word, t) = (self.text(word)?, self.tree(t)?);
                self.arena.make_requirement(word, t)?
            }
            _ => return Ok(None),
        }))
    }
}
