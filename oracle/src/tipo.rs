//! Stand-ins for Aiken's types and constructors, around the module that is compiled unchanged.

pub mod environment;
pub mod error;
pub mod judge;

/// Aiken's module itself, from the path that `oracle/build` was given.
#[allow(
    unreachable_patterns,
    reason = "the stand-ins have no other variant for some of its catch-all arms"
)]
mod exhaustive {
    include!(env!("EXHAUSTIVE_RS"));
}

use crate::ast::Span;
use std::{collections::HashMap, rc::Rc};

/// Stands for an alias's annotation: frames have no aliases.
#[derive(Debug, Clone, PartialEq)]
pub enum TypeAliasAnnotation {}

/// Stands for the types of the language.
#[derive(Debug, Clone, PartialEq)]
pub enum Type {
    App {
        module: String,
        name: String,
        args: Vec<Rc<Type>>,
    },
    Fn {
        args: Vec<Rc<Type>>,
        ret: Rc<Type>,
    },
    Var {
        id: u64,
    },
    Tuple {
        elems: Vec<Rc<Type>>,
        alias: Option<Rc<TypeAliasAnnotation>>,
    },
}

impl Type {
    /// A type of no module with the given name and arguments.
    fn app(name: &str, args: Vec<Rc<Type>>) -> Rc<Type> {
        Rc::new(Type::App {
            module: String::new(),
            name: name.to_string(),
            args,
        })
    }

    /// Stands for a generic type variable.
    pub fn generic_var(id: u64) -> Rc<Type> {
        Rc::new(Type::Var { id })
    }

    /// Stands for the prelude's list type.
    pub fn list(element: Rc<Type>) -> Rc<Type> {
        Type::app("List", vec![element])
    }

    /// A type of the file's table, named by its place: constructors' names may repeat across types.
    pub fn at(place: usize) -> Rc<Type> {
        Type::app(&place.to_string(), vec![])
    }

    /// A constructor's type: its data type, or a function from the fields' types to it.
    pub fn of_constructor(data_type: usize, fields: &[usize]) -> Rc<Type> {
        let ret = Type::at(data_type);
        if fields.is_empty() {
            return ret;
        }
        Rc::new(Type::Fn {
            args: fields.iter().map(|&field| Type::at(field)).collect(),
            ret,
        })
    }
}

/// Stands for a constructor as the environment knows it.
#[derive(Debug, Clone, PartialEq)]
pub struct ValueConstructor {
    pub public: bool,
    pub variant: ValueConstructorVariant,
    pub tipo: Rc<Type>,
}

/// Stands for what a name can mean: here only a constructor.
#[derive(Debug, Clone, PartialEq)]
pub enum ValueConstructorVariant {
    Record {
        name: String,
        arity: usize,
        field_map: Option<FieldMap>,
        location: Span,
        module: String,
        constructors_count: u16,
    },
}

/// Stands for the labels of a constructor with their places among its fields.
#[derive(Debug, Clone, PartialEq)]
pub struct FieldMap {
    pub fields: HashMap<String, (usize, Span)>,
}

/// Stands for the constructor that a pattern names.
#[derive(Clone)]
pub enum PatternConstructor {
    Record { name: String },
}
