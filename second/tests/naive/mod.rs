//! Family lists once more: taken apart without judging them, and looked through name by name.

/// The names of one family, the first name first.
pub type Family = Vec<Vec<u8>>;

/// The families of a sound list.
pub fn families_of(list: &[u8]) -> Vec<Family> {
    let mut families: Vec<Family> = Vec::new();
    for line in list.split(|&byte| byte == b'\n').filter(|line| !line.is_empty()) {
        let name = line[5..].to_vec();
        match families.last_mut() {
            Some(family) if line.starts_with(b"same=") => family.push(name),
            _ => families.push(vec![name]),
        }
    }
    families
}

pub fn has(names: &[Vec<u8>], name: &[u8]) -> bool {
    names.iter().any(|member| member == name)
}

/// "Two names match if they are equal or in one family."
pub fn names_match(families: &[Family], name: &[u8], other: &[u8]) -> bool {
    name == other || families.iter().any(|family| has(family, name) && has(family, other))
}
