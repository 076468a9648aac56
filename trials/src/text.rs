//! FORMATS in antt: the text of the answers, as definitions over those of `crates/rules`.
//! It is kept as a string because no antt file may stand outside the listed crates.

/// The file `specs/Text.antt` of the temporary crate.
pub const TEXT: &str = r#"-- FORMATS.md's text of the answers, as the promises have them: what the routines answer, and what they leave in the rows
use Rattle.std.specs.Prelude.{ℕ, ◌+◌, List, [], ◌∷◌, ◌++◌, eqb, ℤ, pos, negsuc, length, take, drop, replicate, Result, Ok, Err, if◌then◌else◌}
use Rattle.rules.specs.declared.Record.{Record}
use Rattle.rules.specs.declared.Entry.{Entry}
use Rattle.rules.specs.declared.Colour.{Colour}
use Rattle.rules.specs.declared.Refusal.{Refusal}
use Rattle.rules.specs.declared.Reading.{Reading}
use Rattle.rules.specs.declared.Finding.{Finding}
use Rattle.rules.specs.declared.NamePart.{NamePart}
use Rattle.rules.specs.declared.NamePart.TheVariants as N
use Rattle.rules.specs.Bytes.{bytes}
use Rattle.rules.specs.Record.{Answer}
use Rattle.rules.specs.House.{decimal}
use Rattle.rules.specs.Answers.{Spelling, Found, reading_of, records_over, entries_over, respelling_of, buffer_over, finding_of, records_found, hits_over, bytes_of}

abbrev pub sp : List ℕ → List ℕ → List ℕ
sp a b = a ++ 32 ∷ b

abbrev pub integer_text : ℤ → List ℕ
integer_text (pos n) = decimal n
integer_text (negsuc n) = 45 ∷ decimal (n + 1)

abbrev pub refused_text : Refusal → List ℕ
refused_text r = sp (bytes "refused") (sp (decimal r.number) (decimal r.offset)) ++ 10 ∷ []

abbrev pub glyph_text : List ℕ → Record → List ℕ
glyph_text s r =
    sp (bytes "glyph") (sp (decimal r.ordinal) (sp (integer_text r.page) (sp (integer_text r.h) (sp (integer_text r.v)
    (sp (decimal r.font) (sp (decimal r.size) (sp (decimal r.gap) (sp (decimal r.index) (sp (decimal r.place) (sp (decimal r.len) (take r.len (drop r.place s))))))))))))
    ++ 10 ∷ []

abbrev pub letters_text : Entry → List ℕ
letters_text x = x.command ∷ x.letter ∷ (if eqb x.scheme 0 then [] else x.scheme ∷ [])

abbrev pub entry_text : Entry → List ℕ
entry_text x =
    sp (bytes "entry") (sp (letters_text x) (sp (decimal x.ordinal) (sp (decimal x.place) (sp (decimal x.len) (sp (integer_text x.h) (integer_text x.v))))))
    ++ 10 ∷ []

unfoldable pub parts : List ℕ → List ℕ
parts [] = []
parts (n ∷ ns) = 32 ∷ (decimal n ++ parts ns)

abbrev pub colour_text : Colour → List ℕ
colour_text c = c.scheme ∷ parts c.parts

unfoldable pub glyph_texts : List ℕ → List Record → List ℕ
glyph_texts s [] = []
glyph_texts s (r ∷ rs) = glyph_text s r ++ glyph_texts s rs

unfoldable pub entry_texts : List Entry → List ℕ
entry_texts [] = []
entry_texts (x ∷ xs) = entry_text x ++ entry_texts xs

unfoldable pub hit_texts : List ℕ → List ℕ
hit_texts [] = []
hit_texts (n ∷ ns) = (sp (bytes "hit") (decimal n) ++ 10 ∷ []) ++ hit_texts ns

-- What the rows held before: it must not be read, and one place more than is written must keep it, in a refusal all of them.
abbrev pub old_record : Record
old_record = record { ordinal = 9; page = pos 9; h = pos 9; v = pos 9; font = 9; size = 9; place = 9; len = 9; index = 9; gap = 9 }

abbrev pub old_entry : Entry
old_entry = record { command = 9; letter = 9; scheme = 9; ordinal = 9; place = 9; len = 9; h = pos 9; v = pos 9 }

-- so many of what was answered; none in a refusal
abbrev pub counted : {A : Type 0} → (A → ℕ) → Result A Refusal → ℕ
counted count (Err r) = 0
counted count (Ok a) = count a

abbrev pub reading_text : List ℕ → List Record → List Entry → Result Reading Refusal → List ℕ
reading_text s rs xs (Err r) = refused_text r
reading_text s rs xs (Ok a) =
    glyph_texts s (take a.records rs) ++ (entry_texts (take a.entries xs) ++
    (sp (bytes "end") (sp (decimal a.records) (sp (decimal a.entries) (sp (decimal a.pages) (sp (integer_text a.h) (sp (integer_text a.v) (sp (colour_text a.glyph) (colour_text a.fill)))))))
    ++ 10 ∷ []))

unfoldable pub read_text : List ℕ → Answer → List ℕ
read_text s a =
    let n = counted (λ (x : Reading). x.records) (reading_of a) in
    let m = counted (λ (x : Reading). x.entries) (reading_of a) in
    let rs = records_over (replicate (n + 1) old_record) a in
    let xs = entries_over (replicate (m + 1) old_entry) a in
    reading_text s rs xs (reading_of a) ++ (glyph_texts [] (drop n rs) ++ entry_texts (drop m xs))

abbrev pub respelling_text : List ℕ → Result ℕ Refusal → List ℕ
respelling_text t (Err r) = refused_text r
respelling_text t (Ok n) = take n t

unfoldable pub spell_text : Spelling → List ℕ
spell_text x =
    let n = counted (λ (len : ℕ). len) (respelling_of x) in
    let t = buffer_over (replicate (n + 2) 9) x in
    respelling_text t (respelling_of x) ++ drop n t

abbrev pub finding_text : List ℕ → Result Finding Refusal → List ℕ
finding_text is (Err r) = refused_text r
finding_text is (Ok a) = hit_texts (take a.hits is) ++ (sp (bytes "found") (sp (decimal a.records) (decimal a.hits)) ++ 10 ∷ [])

unfoldable pub find_text : Found → List ℕ
find_text f =
    let n = counted (λ (x : Finding). x.records) (finding_of f) in
    let m = counted (λ (x : Finding). x.hits) (finding_of f) in
    let rs = records_found (replicate (n + 1) old_record) f in
    let is = hits_over (replicate (m + 1) 9) f in
    finding_text is (finding_of f) ++ (glyph_texts [] (drop n rs) ++ hit_texts (drop m is))

-- where a first name stands, and its bytes
abbrev pub part_head : NamePart → List ℕ
part_head N.Nowhere = bytes "nowhere"
part_head (N.InStream place len) = sp (bytes "stream") (sp (decimal place) (decimal len)) ++ 32 ∷ []
part_head (N.InFamilies place len) = sp (bytes "families") (sp (decimal place) (decimal len)) ++ 32 ∷ []

unfoldable pub part_text : List ℕ → List ℕ → NamePart → List ℕ
part_text s fl p = part_head p ++ (bytes_of s fl p ++ 10 ∷ [])

unfoldable pub texts : Unit {0}
unfolding parts glyph_texts entry_texts hit_texts read_text spell_text find_text part_text
texts = tt
"#;
