//! Field, return and method descriptors (JVMS 4.3).
use crate::refusal::{accepted_parts, written, Refusal};
use crate::{front, raw, PARAMETER_WORDS};

/// The dimensions, letter, start and length of a part.
type Part = [u32; PARAMETER_WORDS];

/// A type that is no class and no array.
#[derive(Clone, Copy, Debug, PartialEq, Eq, Hash)]
#[repr(u8)]
pub enum BaseType {
    /// `B`
    Byte = b'B',
    /// `C`
    Char = b'C',
    /// `D`
    Double = b'D',
    /// `F`
    Float = b'F',
    /// `I`
    Int = b'I',
    /// `J`
    Long = b'J',
    /// `S`
    Short = b'S',
    /// `Z`
    Boolean = b'Z',
}

impl BaseType {
    /// Its letter in a descriptor.
    pub const fn letter(self) -> u8 {
        self as u8
    }

    /// The type with this letter.
    ///
    /// ```
    /// use nikorepum::BaseType;
    ///
    /// assert_eq!(BaseType::from_letter(b'J'), Some(BaseType::Long));
    /// assert_eq!(BaseType::from_letter(b'L'), None);
    /// ```
    pub const fn from_letter(letter: u8) -> Option<BaseType> {
        Some(match letter {
            b'B' => BaseType::Byte,
            b'C' => BaseType::Char,
            b'D' => BaseType::Double,
            b'F' => BaseType::Float,
            b'I' => BaseType::Int,
            b'J' => BaseType::Long,
            b'S' => BaseType::Short,
            b'Z' => BaseType::Boolean,
            _ => return None,
        })
    }

    /// By the tag of newarray (JVMS 6.5). An accepted tag is 4 to 11, so what is none of the first seven is the last.
    pub(crate) const fn of_array_tag(tag: u32) -> BaseType {
        match tag {
            4 => BaseType::Boolean,
            5 => BaseType::Char,
            6 => BaseType::Float,
            7 => BaseType::Double,
            8 => BaseType::Byte,
            9 => BaseType::Short,
            10 => BaseType::Int,
            _ => BaseType::Long,
        }
    }
}

/// What a field, or an element of an array in all its dimensions, is.
#[derive(Clone, Copy, Debug, PartialEq, Eq, Hash)]
pub enum ElementType<'t> {
    /// No class.
    Base(BaseType),
    /// A class, by its name as it stands between `L` and `;`.
    Class(&'t [u8]),
}

/// A field descriptor. It may be parsed from a text, or made from its parts to be written.
///
/// ```
/// use nikorepum::{BaseType, ElementType, FieldDescriptor};
///
/// let field = FieldDescriptor::parse(b"[[Lcycle/Log;")?;
/// assert_eq!(field, FieldDescriptor { dimensions: 2, element: ElementType::Class(b"cycle/Log") });
///
/// let mut out = [0; 8];
/// let length = FieldDescriptor { dimensions: 1, element: ElementType::Base(BaseType::Int) }.write(&mut out)?;
/// assert_eq!(&out[..length], b"[I");
/// # Ok::<(), nikorepum::Refusal>(())
/// ```
#[derive(Clone, Copy, Debug, PartialEq, Eq, Hash)]
pub struct FieldDescriptor<'t> {
    /// Those of an array, else 0.
    pub dimensions: u8,
    /// The type below the dimensions.
    pub element: ElementType<'t>,
}

impl<'t> FieldDescriptor<'t> {
    /// The whole text as a field descriptor.
    pub fn parse(text: &'t [u8]) -> Result<FieldDescriptor<'t>, Refusal> {
        let parts = accepted_parts(raw::field_whole(text))?;
        Ok(FieldDescriptor::of(text, part_of(&parts)))
    }

    /// The field descriptor that the text begins with, and how many bytes it has.
    ///
    /// ```
    /// use nikorepum::{BaseType, ElementType, FieldDescriptor};
    ///
    /// let (field, used) = FieldDescriptor::parse_prefix(b"I)V")?;
    /// assert_eq!((field.element, used), (ElementType::Base(BaseType::Int), 1));
    /// # Ok::<(), nikorepum::Refusal>(())
    /// ```
    pub fn parse_prefix(text: &'t [u8]) -> Result<(FieldDescriptor<'t>, usize), Refusal> {
        let parts = accepted_parts(raw::field_prefix(text))?;
        Ok((FieldDescriptor::of(text, part_of(&parts)), parts.used as usize))
    }

    /// The whole text as the descriptor of an array; nothing where it is empty or does not start with `[`.
    ///
    /// ```
    /// use nikorepum::FieldDescriptor;
    ///
    /// assert_eq!(FieldDescriptor::parse_array(b"[J")?.map(|field| field.dimensions), Some(1));
    /// assert_eq!(FieldDescriptor::parse_array(b"cycle/Log")?, None);
    /// assert!(FieldDescriptor::parse_array(b"[V").is_err());
    /// # Ok::<(), nikorepum::Refusal>(())
    /// ```
    pub fn parse_array(text: &'t [u8]) -> Result<Option<FieldDescriptor<'t>>, Refusal> {
        let parts = accepted_parts(raw::array(text))?;
        // The letter 0 says that the text is not an array.
        Ok((parts.letter != 0).then(|| FieldDescriptor::of(text, part_of(&parts))))
    }

    /// Writes the descriptor and returns its length.
    ///
    /// The output is untouched past it, and untouched altogether by a refusal:
    /// [`BrokenParts`](crate::Reason::BrokenParts) for a class name that no descriptor has,
    /// [`TextTooLong`](crate::Reason::TextTooLong), [`OutputTooShort`](crate::Reason::OutputTooShort).
    pub fn write(&self, out: &mut [u8]) -> Result<usize, Refusal> {
        let (text, [dimensions, letter, start, length]) = self.part();
        written(raw::print_field(text, dimensions, letter, start, length, out))
    }

    /// Of parts that the library accepted: at most 255 dimensions, and a letter of a base type, or else `L` and a name
    /// that stands in the text. So nothing is lost below.
    fn of(text: &'t [u8], [dimensions, letter, start, length]: Part) -> FieldDescriptor<'t> {
        let rest = text.get(start as usize..).unwrap_or_default();
        let name = rest.get(..length as usize).unwrap_or_default();
        let element = BaseType::from_letter(letter as u8).map_or(ElementType::Class(name), ElementType::Base);
        FieldDescriptor { dimensions: dimensions as u8, element }
    }

    /// Its part, and the text that the part points into: the class name alone. A name whose length is no 32-bit word is
    /// refused as a text before that length is looked at.
    fn part(&self) -> (&'t [u8], Part) {
        let dimensions = self.dimensions.into();
        match self.element {
            ElementType::Base(base) => (&[], [dimensions, base.letter().into(), 0, 0]),
            ElementType::Class(name) => (name, [dimensions, b'L'.into(), 0, name.len() as u32]),
        }
    }
}

/// What a method returns.
///
/// ```
/// use nikorepum::ReturnDescriptor;
///
/// assert_eq!(ReturnDescriptor::parse(b"V")?, ReturnDescriptor::Void);
/// assert!(ReturnDescriptor::parse(b"VV").is_err());
/// # Ok::<(), nikorepum::Refusal>(())
/// ```
#[derive(Clone, Copy, Debug, PartialEq, Eq, Hash)]
pub enum ReturnDescriptor<'t> {
    /// Nothing: `V`.
    Void,
    /// A value of this type.
    Value(FieldDescriptor<'t>),
}

impl<'t> ReturnDescriptor<'t> {
    /// The whole text as a return descriptor.
    pub fn parse(text: &'t [u8]) -> Result<ReturnDescriptor<'t>, Refusal> {
        let parts = accepted_parts(raw::return_whole(text))?;
        Ok(ReturnDescriptor::of(text, part_of(&parts)))
    }

    /// The return descriptor that the text begins with, and how many bytes it has. `V` is one only as the entire text.
    pub fn parse_prefix(text: &'t [u8]) -> Result<(ReturnDescriptor<'t>, usize), Refusal> {
        let parts = accepted_parts(raw::return_prefix(text))?;
        Ok((ReturnDescriptor::of(text, part_of(&parts)), parts.used as usize))
    }

    /// Writes the descriptor and returns its length, as [`FieldDescriptor::write`] does.
    pub fn write(&self, out: &mut [u8]) -> Result<usize, Refusal> {
        let (text, [dimensions, letter, start, length]) = match self {
            ReturnDescriptor::Void => (&[][..], [0, b'V'.into(), 0, 0]),
            ReturnDescriptor::Value(field) => field.part(),
        };
        written(raw::print_return(text, dimensions, letter, start, length, out))
    }

    /// Of parts that the library accepted.
    fn of(text: &'t [u8], part: Part) -> ReturnDescriptor<'t> {
        let [_, letter, ..] = part;
        match letter as u8 {
            b'V' => ReturnDescriptor::Void,
            _ => ReturnDescriptor::Value(FieldDescriptor::of(text, part)),
        }
    }
}

/// A method descriptor, its parameters in a lent store. JVMS's limit of 255 slots is not checked.
///
/// ```
/// use nikorepum::{MethodDescriptor, ReturnDescriptor};
///
/// let text = b"(I[Lcycle/Log;)V";
/// let mut store = [0; nikorepum::parameter_words(16)];
/// let method = MethodDescriptor::parse(text, &mut store)?;
/// assert_eq!(method.parameters().map(|field| field.dimensions).collect::<Vec<_>>(), [0, 1]);
/// assert_eq!(method.returns(), ReturnDescriptor::Void);
///
/// let mut out = [0; 16];
/// assert_eq!(method.write(&mut out)?, 16);
/// assert_eq!(&out, text);
/// # Ok::<(), nikorepum::Refusal>(())
/// ```
#[derive(Clone, Copy, Debug, PartialEq, Eq)]
pub struct MethodDescriptor<'t, 's> {
    text: &'t [u8],
    parameters: &'s [Part],
    returned: Part,
}

impl<'t, 's> MethodDescriptor<'t, 's> {
    /// The whole text as a method descriptor. The words of the parameters go to the front of the store; words past them
    /// stay as they were, and a refusal sets every word to zero.
    pub fn parse(text: &'t [u8], store: &'s mut [u32]) -> Result<MethodDescriptor<'t, 's>, Refusal> {
        let parts = accepted_parts(raw::method_whole(text, store))?;
        Ok(MethodDescriptor::of(text, store, &parts))
    }

    /// The method descriptor that the text begins with, and how many bytes it has. `V` is a return only as the entire
    /// rest of the text. The store is as with [`parse`](MethodDescriptor::parse).
    pub fn parse_prefix(text: &'t [u8], store: &'s mut [u32]) -> Result<(MethodDescriptor<'t, 's>, usize), Refusal> {
        let parts = accepted_parts(raw::method_prefix(text, store))?;
        Ok((MethodDescriptor::of(text, store, &parts), parts.used as usize))
    }

    /// The parameters in order.
    pub fn parameters(
        &self,
    ) -> impl ExactSizeIterator<Item = FieldDescriptor<'t>> + DoubleEndedIterator + Clone + use<'t, 's> {
        let text = self.text;
        self.parameters.iter().map(move |&part| FieldDescriptor::of(text, part))
    }

    /// What it returns.
    pub fn returns(&self) -> ReturnDescriptor<'t> {
        ReturnDescriptor::of(self.text, self.returned)
    }

    /// Writes the descriptor and returns its length. The output is untouched past it, and untouched altogether by a
    /// refusal: [`OutputTooShort`](crate::Reason::OutputTooShort).
    pub fn write(&self, out: &mut [u8]) -> Result<usize, Refusal> {
        let [dimensions, letter, start, length] = self.returned;
        let (parameters, count) = (self.parameters.as_flattened(), self.parameters.len() as u64);
        written(raw::print_method(self.text, parameters, count, dimensions, letter, start, length, out))
    }

    fn of(text: &'t [u8], store: &'s [u32], parts: &raw::Parts) -> MethodDescriptor<'t, 's> {
        // What follows the descriptor is no part of it. The bytes used are at most those of the text.
        let text = text.get(..parts.used as usize).unwrap_or(text);
        MethodDescriptor { text, parameters: front(store, parts.parameters as usize), returned: part_of(parts) }
    }
}

/// Whether the whole text is a field descriptor.
///
/// ```
/// assert!(nikorepum::is_field_descriptor(b"[I"));
/// assert!(!nikorepum::is_field_descriptor(b"V"));
/// ```
pub fn is_field_descriptor(text: &[u8]) -> bool {
    raw::is_field_descriptor(text)
}

/// Whether the whole text is a field descriptor that starts with `[`.
///
/// ```
/// assert!(nikorepum::is_array_descriptor(b"[I"));
/// assert!(!nikorepum::is_array_descriptor(b"I"));
/// ```
pub fn is_array_descriptor(text: &[u8]) -> bool {
    raw::is_array_descriptor(text)
}

/// Whether the whole text is a return descriptor.
///
/// ```
/// assert!(nikorepum::is_return_descriptor(b"V"));
/// assert!(!nikorepum::is_return_descriptor(b""));
/// ```
pub fn is_return_descriptor(text: &[u8]) -> bool {
    raw::is_return_descriptor(text)
}

/// Whether the whole text is a method descriptor. No store is needed.
///
/// ```
/// assert!(nikorepum::is_method_descriptor(b"(I)V"));
/// assert!(!nikorepum::is_method_descriptor(b"(V)I"));
/// ```
pub fn is_method_descriptor(text: &[u8]) -> bool {
    raw::is_method_descriptor(text)
}

fn part_of(parts: &raw::Parts) -> Part {
    [parts.dimensions, parts.letter, parts.start, parts.length]
}
