//! Stands for Aiken's `Environment`: the lookup of a type's constructors, answered from the file's type table.

use super::{FieldMap, Type, ValueConstructor, ValueConstructorVariant, error::Error};
use crate::{
    ast::Span,
    table::{Constructor, Table, TypeDef},
};
use std::collections::HashMap;

/// The constructors of each data type, by the type's name.
pub struct Environment {
    module_types_constructors: HashMap<String, Vec<ValueConstructor>>,
}

impl Environment {
    /// The environment in which the table's data types stand, each named as `Type::at` names it.
    pub fn new(table: &Table) -> Self {
        let mut module_types_constructors = HashMap::new();
        for (place, def) in table.iter().enumerate() {
            if let TypeDef::Data(constructors) = def {
                module_types_constructors
                    .insert(place.to_string(), value_constructors(place, constructors));
            }
        }
        Environment {
            module_types_constructors,
        }
    }

    /// Stands for the lookup of the same name; a file is one module.
    pub fn get_constructors_for_type(
        &mut self,
        _full_module_name: &str,
        name: &str,
        _location: Span,
    ) -> Result<Vec<ValueConstructor>, Error> {
        self.module_types_constructors
            .get(name)
            .cloned()
            .ok_or_else(|| Error::UnknownType {
                name: name.to_string(),
            })
    }
}

/// The constructors of the data type at a place, in declared order.
fn value_constructors(place: usize, constructors: &[Constructor]) -> Vec<ValueConstructor> {
    constructors
        .iter()
        .map(|constructor| ValueConstructor {
            public: true,
            tipo: Type::of_constructor(place, &constructor.fields),
            variant: ValueConstructorVariant::Record {
                name: constructor.name.clone(),
                arity: constructor.fields.len(),
                field_map: constructor.labels.as_deref().map(field_map),
                location: Span::empty(),
                module: String::new(),
                constructors_count: constructors.len() as u16,
            },
        })
        .collect()
}

/// The labels with their places among the fields.
fn field_map(labels: &[String]) -> FieldMap {
    let fields = labels
        .iter()
        .enumerate()
        .map(|(index, label)| (label.clone(), (index, Span::empty())))
        .collect();
    FieldMap { fields }
}
