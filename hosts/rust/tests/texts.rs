//! Descriptors read and written, the method identifier, and the yes/no checks.
use nikorepum::{
    class_name, is_array_descriptor, is_binary_name, is_field_descriptor, is_method_descriptor, is_method_name,
    is_module_name, is_return_descriptor, is_unqualified_name, method_identifier, parameter_words, BaseType,
    ElementType, FieldDescriptor, MethodDescriptor, Reason, ReturnDescriptor, TEXT_LIMIT,
};

fn base(dimensions: u8, element: BaseType) -> FieldDescriptor<'static> {
    FieldDescriptor { dimensions, element: ElementType::Base(element) }
}

fn class(dimensions: u8, name: &[u8]) -> FieldDescriptor<'_> {
    FieldDescriptor { dimensions, element: ElementType::Class(name) }
}

/// `L`, so many times `a`, `;`: a descriptor two bytes longer than its class name.
fn class_text(name_bytes: usize) -> Vec<u8> {
    [&b"L"[..], &vec![b'a'; name_bytes], b";"].concat()
}

#[test]
fn every_base_type() {
    use BaseType::*;
    for (letter, element) in b"BCDFIJSZ".iter().zip([Byte, Char, Double, Float, Int, Long, Short, Boolean]) {
        assert_eq!(FieldDescriptor::parse(&[*letter]), Ok(base(0, element)));
        assert_eq!(BaseType::from_letter(*letter), Some(element));
        assert_eq!(element.letter(), *letter);
        let mut out = [0];
        assert_eq!(base(0, element).write(&mut out), Ok(1));
        assert_eq!(out, [*letter]);
    }
    assert_eq!(BaseType::from_letter(b'V'), None);
}

#[test]
fn fields() {
    assert_eq!(FieldDescriptor::parse(b"La/b;"), Ok(class(0, b"a/b")));
    assert_eq!(FieldDescriptor::parse_prefix(b"[[La/b;rest"), Ok((class(2, b"a/b"), 7)));
    assert_eq!(FieldDescriptor::parse_prefix(b"JJ"), Ok((base(0, BaseType::Long), 1)));
    assert_eq!(FieldDescriptor::parse(b"L\xff;"), Ok(class(0, b"\xff")));
}

#[test]
fn arrays() {
    assert_eq!(FieldDescriptor::parse_array(b"[[I"), Ok(Some(base(2, BaseType::Int))));
    assert_eq!(FieldDescriptor::parse_array(b""), Ok(None));
    assert_eq!(FieldDescriptor::parse_array(b"I"), Ok(None));
    let refusal = FieldDescriptor::parse_array(b"[I;").unwrap_err();
    assert_eq!((refusal.reason, refusal.place), (Reason::LeftOver, 2));
}

#[test]
fn returns() {
    assert_eq!(ReturnDescriptor::parse(b"V"), Ok(ReturnDescriptor::Void));
    assert_eq!(ReturnDescriptor::parse(b"[B"), Ok(ReturnDescriptor::Value(base(1, BaseType::Byte))));
    assert_eq!(ReturnDescriptor::parse_prefix(b"V"), Ok((ReturnDescriptor::Void, 1)));
    assert_eq!(ReturnDescriptor::parse_prefix(b"La;;"), Ok((ReturnDescriptor::Value(class(0, b"a")), 3)));
    assert_eq!(ReturnDescriptor::parse_prefix(b"V ").map_err(|r| r.place), Err(0));
    let mut out = *b"....";
    assert_eq!(ReturnDescriptor::Void.write(&mut out), Ok(1));
    assert_eq!(ReturnDescriptor::Value(class(0, b"a")).write(&mut out[1..]), Ok(3));
    assert_eq!(&out, b"VLa;");
}

#[test]
fn parameters_from_both_ends() {
    let mut store = [9; 13];
    let method = MethodDescriptor::parse(b"(J[La/b;Z)La;", &mut store).unwrap();
    let want = [base(0, BaseType::Long), class(1, b"a/b"), base(0, BaseType::Boolean)];
    assert_eq!(method.parameters().len(), 3);
    assert_eq!(method.parameters().collect::<Vec<_>>(), want);
    assert!(method.parameters().rev().eq(want.iter().rev().copied()));
    assert_eq!(method.returns(), ReturnDescriptor::Value(class(0, b"a")));
    assert_eq!(store, [0, b'J'.into(), 0, 0, 1, b'L'.into(), 4, 3, 0, b'Z'.into(), 0, 0, 9]);
}

#[test]
fn a_method_prefix_leaves_the_rest() {
    let mut store = [0; 4];
    let (method, used) = MethodDescriptor::parse_prefix(b"(I)J and more", &mut store).unwrap();
    assert_eq!(used, 4);
    assert_eq!(method.returns(), ReturnDescriptor::Value(base(0, BaseType::Long)));
    assert_eq!(Ok(method), MethodDescriptor::parse(b"(I)J", &mut [0; 4]));
    let mut out = [b'.'; 6];
    assert_eq!(method.write(&mut out), Ok(4));
    assert_eq!(&out, b"(I)J..");
}

/// The first parameter, whose name still stands in the text when the store is gone.
fn first_parameter(text: &[u8]) -> FieldDescriptor<'_> {
    let mut store = [0; 4];
    let mut parameters = MethodDescriptor::parse(text, &mut store).unwrap().parameters();
    parameters.next().unwrap()
}

#[test]
fn names_outlive_the_store() {
    assert_eq!(first_parameter(b"(La/b;)V"), class(0, b"a/b"));
}

#[test]
fn parameter_stores_exactly_full_and_one_short() {
    let parses = |words: usize| {
        let mut store = vec![9; words];
        let answer = MethodDescriptor::parse(b"(II)V", &mut store).map(|method| method.parameters().len());
        assert!(answer.is_ok() || store.iter().all(|&word| word == 0), "a refusal clears the store");
        answer.map_err(|refusal| (refusal.reason, refusal.place))
    };
    assert_eq!(parses(parameter_words(5)), Ok(2));
    assert_eq!(parses(8), Ok(2));
    assert_eq!(parses(7), Err((Reason::NoParameterLeft, 2)));
    assert_eq!(parses(0), Err((Reason::NoParameterLeft, 1)));
    assert_eq!(parameter_words(usize::MAX), 4 * TEXT_LIMIT);
}

#[test]
fn the_longest_method() {
    let text = [&b"("[..], &[b'I'; TEXT_LIMIT - 3], b")V"].concat();
    let mut store = vec![0; parameter_words(text.len())];
    let method = MethodDescriptor::parse(&text, &mut store).unwrap();
    assert_eq!(method.parameters().len(), TEXT_LIMIT - 3);
    let mut out = vec![0; TEXT_LIMIT];
    assert_eq!(method.write(&mut out), Ok(TEXT_LIMIT));
    assert_eq!(out, text);
}

#[test]
fn outputs_exactly_full_and_one_short() {
    let field = FieldDescriptor::parse(b"[La;").unwrap();
    let (mut room, mut short) = (*b"....", *b"...");
    assert_eq!(field.write(&mut room), Ok(4));
    assert_eq!(&room, b"[La;");
    assert_eq!(field.write(&mut short).map_err(|r| r.reason), Err(Reason::OutputTooShort));
    assert_eq!(&short, b"...");
    assert_eq!(field.write(&mut []).map_err(|r| r.reason), Err(Reason::OutputTooShort));
}

#[test]
fn the_longest_class_name() {
    let text = class_text(TEXT_LIMIT - 2);
    let field = FieldDescriptor::parse(&text).unwrap();
    let mut out = vec![0; TEXT_LIMIT + 1];
    assert_eq!(field.write(&mut out), Ok(TEXT_LIMIT));
    assert_eq!((&out[..TEXT_LIMIT], out[TEXT_LIMIT]), (&text[..], 0));
    for name_bytes in [TEXT_LIMIT - 1, TEXT_LIMIT, TEXT_LIMIT + 1] {
        let name = vec![b'a'; name_bytes];
        assert_eq!(class(0, &name).write(&mut out).map_err(|r| r.reason), Err(Reason::TextTooLong));
    }
}

#[test]
fn class_names_that_no_descriptor_has() {
    let mut out = *b"kept";
    for name in [&b""[..], b"a/", b"/a", b"a;", b"a.b", b"<"] {
        let refusal = class(0, name).write(&mut out).unwrap_err();
        assert_eq!((refusal.reason, refusal.place), (Reason::BrokenParts, 0));
    }
    assert_eq!(&out, b"kept");
}

#[test]
fn class_names_alone() {
    assert_eq!(class_name(b"a/b"), Ok(()));
    assert_eq!(class_name(&[b'a'; TEXT_LIMIT]), Ok(()));
    assert_eq!(class_name(b"a<b").map_err(|r| (r.reason, r.place)), Err((Reason::BarredByte, 1)));
}

#[test]
fn identifiers() {
    let mut out = [b'.'; 12];
    assert_eq!(method_identifier(b"<clinit>", b"()V", &mut out), Ok(11));
    assert_eq!(&out, b"<clinit>()V.");
    assert_eq!(method_identifier(b"log", b"(I)V", &mut out[..7]), Ok(7));
    assert_eq!(&out, b"log(I)V>()V.");
    assert_eq!(method_identifier(b"log", b"(I)V", &mut out[..6]).map_err(|r| r.reason), Err(Reason::OutputTooShort));
    assert_eq!(&out[..7], b"log(I)V");
}

#[test]
fn names() {
    assert!(is_binary_name(b"a/b") && !is_binary_name(b"a/") && !is_binary_name(b""));
    assert!(is_unqualified_name(b"<") && !is_unqualified_name(b"a/b") && !is_unqualified_name(b""));
    assert!(is_module_name(b"") && is_module_name(br"a\\") && !is_module_name(br"a\") && !is_module_name(b"a@"));
    assert!(!is_method_name(b"<", true, true) && is_method_name(b"a", false, false));
    for (init, clinit) in [(false, false), (false, true), (true, false), (true, true)] {
        assert_eq!(is_method_name(b"<init>", init, clinit), init);
        assert_eq!(is_method_name(b"<clinit>", init, clinit), clinit);
    }
}

#[test]
fn descriptors_yes_or_no() {
    assert!(is_field_descriptor(b"La;") && !is_field_descriptor(b"V") && !is_field_descriptor(b"II"));
    assert!(is_array_descriptor(b"[La;") && !is_array_descriptor(b"La;") && !is_array_descriptor(b"["));
    assert!(is_return_descriptor(b"V") && is_return_descriptor(b"I") && !is_return_descriptor(b"[V"));
    assert!(is_method_descriptor(b"()V") && !is_method_descriptor(b"()") && !is_method_descriptor(b"()VV"));
}

#[test]
fn the_limit_of_yes_or_no() {
    let (good, long) = ([b'a'; TEXT_LIMIT], [b'a'; TEXT_LIMIT + 1]);
    assert!(is_binary_name(&good) && is_unqualified_name(&good) && is_module_name(&good));
    assert!(!is_binary_name(&long) && !is_unqualified_name(&long) && !is_module_name(&long));
    assert!(is_method_name(&good, false, false) && !is_method_name(&long, true, true));
    assert!(is_field_descriptor(&class_text(TEXT_LIMIT - 2)) && !is_field_descriptor(&class_text(TEXT_LIMIT - 1)));
}
