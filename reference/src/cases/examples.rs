//! Texts from the documents: case S of document 01, and examples of the
//! handbook (000) and of its page on relative retunings (003), right ones and
//! ones that use what is left out for now. The handbook's harmonies and its
//! `Anker_neu` stand in whole texts here, with what they call.

/// The scale of the handbook's chapter 7, on which its harmonies play.
macro_rules! c_dur_rein {
    () => {
        "INTERVALL Quinte = 3:2 Terz = 5:4 Naturseptime = 7:4 Oktave = 2:1\n\
         TON c = a - Terz + Quinte - Oktave des = f - Terz d = g + Quinte - Oktave es = g - Terz\n\
         e = c + Terz f = c - Quinte + Oktave fis = d + Terz g = c + Quinte as = c - Terz + Oktave\n\
         a = 440 b = f - Quinte + Oktave h = g + Terz b2 = c + Naturseptime\n\
         TONSYSTEM C_Dur_Rein = 60 [ c,des,d,es,e,f,fis,g,as,a,b,h ] Oktave\n\
         UMSTIMMUNG Natur = [ @,@,@,@,@,@,@,@,@,@, b2 ,@ ]\n"
    };
}

pub const EXAMPLES: [&str; 26] = [
    "INTERVAL Octave = 2 : 1 Fifth = 3 : 2 TONE a = 440 e = a + Fifth \
     TONESYSTEM Two = 69 [ a, e ] Octave RETUNING Up = @ + 1 [ ] LOGIC L KEY M = Two [ KEY U -> Up ]",
    "INTERVALL\n  Drittelton = 18 Wurzel 2\nTON\n  a = 440\nTONSYSTEM\n  Drittel = 69 [a] Drittelton\n\
     LOGIK\n  Drittel Taste D = Drittel [ ]\n",
    "INTERVALL Quinte = 3:2 Terz = 5:4 Oktave = 2:1 Syn_Komma = 4 Quinte - 2 Oktave - Terz\n\
     TON c = a - Terz + Quinte - Oktave d = g + Quinte - Oktave g = c + Quinte a = 440\n\
     b = c - 2 Quinte + 2 Oktave h = g + Terz\n\
     TONSYSTEM C_Dur = 60 [c,,d,,,,,g,,a,b,h] Oktave\nLOGIK C_Dur Taste C = C_Dur []",
    "LOGIK Halb Taste H = Halb [] Drittel Taste D = Drittel []\r\nTONSYSTEM Halb = 69 [a] Halbton\r\n\
     Drittel = 69 [a] Drittelton TON a=440 INTERVALL Halbton = 12 Wurzel 2 Drittelton = 18 Wurzel 2",
    "INTERVALL Erstens = 12 Wurzel 2 Zweitens = 13 Wurzel 2 UMSTIMMUNG E = [ ] Erstens Z = [ ] Zweitens\n\
     LOGIK Eins Taste E = E [ ] Zwei Taste Z = Z [ ]",
    "INTERVALL cent = 1200 wurzel 2 UMSTIMMUNG Verdopplung = [<< @ * 2 >>] Trichter = [] @ + 3 cent\n\
     Temp_nach_rein = [@ , @ , @ , @ , @ - 14 cent , @ - 2 cent , @ , @ + 2 cent] Transponieren = @ - 2 []\n\
     LOGIK L TASTE a = [ TASTE v -> Verdopplung TASTE t -> Trichter TASTE n -> Temp_nach_rein \
     TASTE p -> Transponieren ]",
    "UMSTIMMUNG\nAnker = @ + 1 [ ] Breite = [ << @ - 2 >> ] Toene = [@ , @ , @ + 2 Quinte - Oktave ,\n\
     @ - 3 Terz + Oktave , @ , @ + Syn_Komma , , ] Periode= [ ] @ + Syn_Komma\n\
     INTERVALL Quinte = 3 : 2 Oktave = 2 : 1 Terz = 5 : 4 Syn_Komma = 81 : 80",
    "TONSYSTEM drei = 50 [ t1, t2, t3 ] halbton TON t1 = t2 - 10 cent t2 = 440 t3 = t2 + 10 cent\n\
     INTERVALL halbton = 12 wurzel 2 cent = 1200 wurzel 2",
    "UMSTIMMUNG u1 = 51 [ ] \"Setzt Verankerungstaste neu\" u2 = [ << 5 >> ] \"Setzt die Breite auf 5\"\n\
     u3 = [ << @ + 1 >> ] u5 = [ @, @, @ - 3 cent ] u6 = [ ] ganzton - 5 cent u7 = [ ] @ + halbton\n\
     INTERVALL cent = 1200 WURZEL 2 halbton = 100 cent ganzton = 2 halbton",
    "UMSTIMMUNG Ton = [ @ , @ ]",
    "UMSTIMMUNG Was_ist_das = @ + 4",
    "UMSTIMMUNG mehrfach = { u1, u3, u7 } setze_anker (x) = x [ ]",
    "HARMONIE\n\nC_DUR = { 0,4,7 }\n\nUMSTIMMUNG Hinauf = @ + 7 [ ]\n\
     LOGIK Dur Taste D = [ C_DUR -> Hinauf ]",
    "HARMONIE\n\nDur2 = { 0,4,7,*10 }\n\nUMSTIMMUNG Hinab = @ - 7 [ ]\nLOGIK Dur Dur2 = Hinab [ ]",
    concat!(
        c_dur_rein!(),
        "HARMONIE    Septakkord = { 0, *4, *7, 10 }\nLOGIK\n\
         \x20   Mutierend Taste M = C_Dur_Rein [ Septakkord -> Natur ]\n"
    ),
    C_B,
    "INTERVALL Halbton = 12 Wurzel 2 MiniOktave = 11 Halbton Oktave = 12 Halbton\n\
     TON c = a - 9 Halbton cis = c + Halbton d = c + 2 Halbton dis = c + 3 Halbton e = c + 4 Halbton\n\
     f = c + 5 Halbton fis = c + 6 Halbton g = c + 7 Halbton gis = c + 8 Halbton a = 440\n\
     b = a + Halbton h = a + 2 Halbton\n\
     TONSYSTEM Zwoelf_Stufig = 60 [ c, cis, d, dis, e, f, fis, g, gis, a, b, h ] Oktave\n\
     HARMONIE\n\nD_Dur = { 2,6,9 }\n\nUMSTIMMUNG\n\nGelb = [ ] MiniOktave\n\n\
     LOGIK\n\nBraun Taste b = Zwoelf_Stufig [ D_Dur -> Gelb ]\n",
    "HARMONIE Moll = {0,3,7}\nUMSTIMMUNG Meier = 34 []\nLOGIK Nie Taste n = [2 ~ Moll -> Meier]\n",
    "HARMONIE\ndur = {0, 4, 7}\nLOGIK mutiere_dur_2 Taste M = [\n    FORM dur  -> u1\n]\n",
    "RETUNING Anker_neu ( x ) = x [ ] Up ( n ) = @ + n [ ] LOGIC L KEY L = Anker_neu ( 62 ) [ \
     KEY A -> Up ( 3 ) KEY B -> Up ( 9999 ) KEY C -> Anker_neu ( 60 ) ]",
    "RETUNING W ( a, b ) = [ << @ / b >> ] T ( a ) = [ << @ * a >> ] S ( a ) = [ << a >> ] \
     LOGIC L KEY L = W ( 7, 0 ) [ KEY A -> W ( 0, 2 ) KEY B -> T ( 3 ) KEY C -> S ( 0 ) \
     KEY D -> W ( 5, 0 ) ]",
    "INTERVAL O = 2 : 1 RETUNING P ( a ) = [ ] O + O T ( a, b, c, d ) = [ , @ + O ] \
     LOGIC L KEY L = P ( 0 ) [ KEY A -> T ( 1, 2, 3, 4 ) ]",
    "TONE x = 440 RETUNING x ( X ) = @ - x [ ] LOGIC L KEY L = x ( #A ) [ ]",
    "RETUNING Far = 200 [ ] Up = @ + 1 [ ] LOGIC L KEY L = Far [ KEY U -> Up ]",
    "RETUNING a = x [ ] INTERVAL b = b",
    "LOGIC L KEY L = [ KEY A -> L ( 1 ) ]",
];

/// Request 1/13: a placeholder in each of the eight forms and in the others, with
/// names that other things have; numbers at the limits of each form and one past
/// them; divisions by zero in starts and orders, of letters and harmonies.
pub const PLACEHOLDERS: &str =
    "INTERVAL O = 2 : 1 x = 3 : 2 TONE a = 440 x = a + x TONESYSTEM Two = 69 [ a, x, , x ] O \
     HARMONY C = { 0 } D = { 1, *2 } RETUNING To ( x ) = x [ ] Up ( n, x ) = @ + n [ ] \
     Down ( x, n ) = @ - n [ ] Wide ( Two ) = [ << two >> ] More ( a ) = [ << @ + A >> ] \
     Less ( a, b, c, d ) = [ << @ - d >> ] x ( x ) = [ << @ * x >> ] Part ( O, C ) = [ << @ / c >> ] \
     Same ( x ) = @ [ ] Five ( x, y ) = [ << 5 >> ] Long ( x ) = [ ] 10 O \
     Mute ( a, b, c, d ) = [ , @ + x ] \
     LOGIC L KEY L = Part ( 9999, 0 ) [ KEY A -> To ( 0 ) KEY B -> To ( 127 ) KEY C -> To ( 128 ) \
     KEY D -> To ( 60 ) KEY E -> Up ( 1, 0 ) KEY F -> Up ( 0, 9999 ) KEY G -> Down ( 0, 1 ) \
     KEY H -> Down ( 1, 9999 ) KEY I -> Wide ( 12 ) KEY J -> Wide ( 60 ) KEY K -> M D -> Part ( 1, 0 ) ] \
     M KEY M = Part ( 1, 0 ) [ KEY A -> Wide ( 61 ) KEY B -> Wide ( 0 ) KEY C -> More ( 1 ) \
     KEY D -> More ( 9999 ) KEY E -> Less ( 9, 9, 9, 1 ) KEY F -> Less ( 1, 1, 1, 60 ) \
     KEY G -> x ( 2 ) KEY H -> x ( 0 ) KEY I -> Part ( 0, 2 ) KEY J -> Part ( 9999, 0 ) KEY K -> N \
     D -> Up ( 12, 0 ) ] N KEY N = Mute ( 0, 0, 0, 0 ) [ KEY A -> Part ( 7, 0 ) KEY B -> Part ( 0, 9999 ) \
     KEY C -> Same ( 9999 ) KEY D -> Five ( 0, 1 ) KEY E -> Long ( 127 ) \
     KEY F -> Mute ( 0, 1, 127, 9999 ) KEY G -> Two KEY H -> x ( #2 ) KEY I -> Part ( 2, 1 ) \
     KEY J -> Wide ( 12 ) KEY K -> L ] P C = Part ( 0, 0 ) [ KEY A -> Down ( 0, 2 ) KEY B -> L ] \
     Q KEY Q = Up ( 2, 9 ) [ KEY A -> Mute ( 4, 3, 2, 1 ) KEY B -> Long ( 0 ) KEY C -> x ( 2 ) \
     KEY D -> x ( 3 ) KEY E -> N ]";

/// Request 6/13: tones at the ends of what an instrument has and one past each,
/// under every key, and letters that move them by one; periods that send most
/// keys far away, one of them from a muted first position. m measures 1.
pub const LIMITS: &str =
    "INTERVAL h = 12 ROOT 2 m = 429496 : 429495.8759 O = 12 h TONE a = 440 low = a - 69 h \
     under = low - m over = a + 59 h high = over - m \
     TONESYSTEM Ends = 60 [ low, under, high, over, ] 0 h Wide = 60 [ , high, a ] 10 O \
     HARMONY C = { 0 } D = { 1, *2 } RETUNING Up = [ @ + m, @ + m, @ + m, @ + m ] \
     Down = [ @ - m, @ - m, @ - m, @ - m ] Nine = [ ] 9 O None = [ ] 0 h Step = @ + 1 [ ] \
     Back = @ - 1 [ ] More = [ << @ + 1 >> ] Less = [ << @ - 1 >> ] Twice = [ << @ * 2 >> ] \
     LOGIC L KEY L = Ends [ KEY U -> Up KEY D -> Down KEY N -> Nine KEY O -> None KEY S -> Step \
     KEY B -> Back KEY M -> More KEY K -> Less KEY T -> Twice KEY W -> Wide KEY E -> Ends \
     KEY F -> Ends C -> Step D -> Down ]";

const C_B: &str = concat!(
    c_dur_rein!(),
    "Normal = [ @,@,@,@,@,@,@,@,@,@, b,@ ]\n\nHARMONIE\n\nSeptakkord = { 0, *4, *7, 10 }\n\n\
     Be = { 10 }\n\nLOGIK\n\nStatisch Taste s = C_Dur_Rein [ ]\n\n\
     Mutierend Taste m = C_Dur_Rein [ Septakkord -> Natur\n\
     \x20                               Be           -> Normal ]\n"
);

#[cfg(test)]
mod tests {
    use super::*;
    use crate::frames::Desk;
    use crate::state::Key;
    use crate::text;

    #[test]
    fn each_is_right_or_uses_what_is_left_out() {
        let number = |text: &&str| text::read(text.as_bytes()).err().map_or(0, |r| r.number);
        let numbers: Vec<_> = EXAMPLES.iter().map(number).collect();
        assert_eq!(
            numbers,
            [0, 0, 0, 0, 0, 0, 0, 0, 0, 3, 3, 3, 0, 0, 0, 0, 0, 3, 3, 0, 0, 0, 0, 0, 24, 24]
        );
    }

    /// The handbook's steps: f-b is pure, with a c the b becomes a natural
    /// seventh above it, and when the c goes it is the old one again.
    #[test]
    fn the_septime_of_c_b() {
        let mut desk = Desk::new(text::read(C_B.as_bytes()).unwrap());
        let mut b_after = |frame: &str| {
            desk.answer(frame.as_bytes(), &mut Vec::new());
            desk.state().pitch(Key(70)).unwrap().0
        };
        let (pure, natural) = (7_011_731, 6_984_467);
        for (frame, b) in [
            ("010153", pure),
            ("010546", pure),
            ("01053C", pure),
            ("01014D", pure),
            ("01063C", pure),
            ("02053C", natural),
            ("020540", natural),
            ("020640", natural),
            ("02063C", pure),
        ] {
            assert_eq!(b_after(frame), b, "{frame}");
        }
    }
}
