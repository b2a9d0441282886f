//! The file's type table.

use crate::reader::{Fault, Reader};

/// A constructor of a data type, as its frame has it.
pub struct Constructor {
    pub name: String,
    /// In field order, where the fields have labels.
    pub labels: Option<Vec<String>>,
    /// The fields' types, by their places in the table.
    pub fields: Vec<usize>,
}

/// One type of the table; the types inside are places in the table.
pub enum TypeDef {
    Integer,
    ByteString,
    Opaque,
    List(usize),
    Tuple(Vec<usize>),
    Pair(usize, usize),
    Data(Vec<Constructor>),
}

/// The types in the order of their frames.
#[derive(Default)]
pub struct Table(Vec<TypeDef>);

impl Table {
    /// The types from place 0 on.
    pub fn iter(&self) -> impl Iterator<Item = &TypeDef> {
        self.0.iter()
    }

    /// The type at a place.
    pub fn get(&self, place: usize) -> Result<&TypeDef, Fault> {
        self.0.get(place).ok_or("a reference to no type")
    }

    /// Reads what follows the kind of a type frame; a data type's constructors come later.
    pub fn read_type(&mut self, reader: &mut Reader) -> Result<(), Fault> {
        let def = match reader.number()? {
            0 => TypeDef::Integer,
            1 => TypeDef::ByteString,
            2 => TypeDef::Opaque,
            3 => TypeDef::List(reader.number()?),
            4 => {
                let count = reader.number()?;
                TypeDef::Tuple(reader.items(count, Reader::number)?)
            }
            5 => TypeDef::Pair(reader.number()?, reader.number()?),
            6 => TypeDef::Data(vec![]),
            _ => return Err("an unknown kind of type"),
        };
        self.0.push(def);
        Ok(())
    }

    /// Reads what follows the kind of a constructor frame, for the data type just above.
    pub fn read_constructor(&mut self, reader: &mut Reader) -> Result<(), Fault> {
        let Some(TypeDef::Data(constructors)) = self.0.last_mut() else {
            return Err("a constructor without a data type above");
        };
        constructors.push(constructor(reader)?);
        Ok(())
    }
}

/// Reads a constructor's name and fields.
fn constructor(reader: &mut Reader) -> Result<Constructor, Fault> {
    let name = reader.text()?;
    let labelled = reader.flag()?;
    let arity = reader.number()?;
    let mut labels = vec![];
    let fields = reader.items(arity, |reader| {
        let field = reader.number()?;
        if labelled {
            labels.push(reader.text()?);
        }
        Ok(field)
    })?;
    Ok(Constructor {
        name,
        labels: labelled.then_some(labels),
        fields,
    })
}
