type t = { mutable f0 : int; mutable f1 : int }
type s = C0 | C1 | C2
external read : int -> int = "READ"
external peek : int -> int = "PEEK"
external sound : int -> int -> int = "SOUND"
external lamp_2 : int -> int -> int = "LAMP_2"
external log : int -> int -> int -> int = "LOG"
external valve : int -> int -> int -> int -> int = "VALVE"
external pump : int -> int -> int -> int -> int -> int = "PUMP"
external flag : int -> bool = "PEEK"
let three = 3
let limit = 532
let below = -17
let day = 24 * 52
let last = limit - 1

let f1 (a1 : int) (c2 : s) =
  ignore (read (a1));
  (let v7 = (let m6 = ref (let m3 = ref a1 in (if (day >= (3)) then (~- ((if ((!m3 >= last) || (a1 <= (-2))) then (ignore (read (a1)); a1) else (let v4 = a1 in (4))))) else (match c2 with | C0 -> (if (!m3 < (-1)) then (a1 - a1) else (a1 - (975))) | C1 -> (let m5 = ref (valve (a1) (a1) (a1) ((0))) in (if (a1 <= (-2)) then (66) else a1)) | C2 -> (m3 := (71); limit)))) in (ignore (valve ((3)) (a1) (a1) ((-2))); (~- ((if (not ((not (a1 <> (4))) || (flag a1))) then ((if ((0) <= three) then (ignore (peek ((2))))); a1) else a1))))) in v7)

let f2 (a1 : int) (c2 : s) (a3 : int) (t4 : bool) (a5 : int) =
  (if t4 then ((for i6 = (0) downto (-1) do ignore (sound (i6) ((2))); ignore (pump ((2)) (i6) ((0)) (i6) (i6)) done)));
  (let m7 = ref (~- (((match c2 with | C0 -> (if ((a1 > a1) || ((((flag (4)) || (a3 <> a1)) || (a1 >= (5) && a1 <= 12)) && t4)) then (ignore (sound ((855)) ((0))); (pump (a5) (a5) ((-538)) (a5) ((875)))) else (if ((a1 <= a3) || (((not (((not (a5 >= (-1) && a5 <= 8)) && ((a1 <> (5)) && ((((not t4) || t4) || (a1 <= (-1))) || (a1 = (1))))) || ((a5 >= (4) && a5 <= 11) && (not ((a5 >= (5) && a5 <= 12) || (a5 >= (-186))))))) && ((5) <= a1)) || t4)) then a5 else (0))) | C1 -> a5 | C2 -> (3)) + 61))) in a5)
