type t = { mutable f0 : int; mutable f1 : int }
type s = C0 | C1 | C2 | C3 | C4
external read : int -> int = "READ"
external peek : int -> int = "PEEK"
external sound : int -> int -> int = "SOUND"
external lamp_2 : int -> int -> int = "LAMP_2"
external log : int -> int -> int -> int = "LOG"
external valve : int -> int -> int -> int -> int = "VALVE"
external pump : int -> int -> int -> int -> int -> int = "PUMP"
external flag : int -> bool = "PEEK"
let three = 3
let limit = 338
let below = -8
let day = 24 * 38
let last = limit - 1

let f1 (a1 : int) (r : t) (c2 : s) =
  (for i3 = (2) to three + (2) do ignore (lamp_2 ((846)) (i3)) done);
  (let v7 = (let v4 = a1 in (ignore (lamp_2 ((863)) ((-1))); (if (a1 >= (-1) && a1 <= 8) then v4 else (match c2 with | C0 -> (let m5 = ref (1) in (v4 - 115)) | C1 -> (match r.f0 with | -2 -> (match c2 with | C0 -> v4 | C1 -> (3) | C2 -> (-975) | C3 | C4 -> (5)) | -1 -> (if (v4 >= (1)) then (-819) else (3)) | _ -> (ignore (valve ((1)) ((696)) (v4) (v4)); (443))) | C2 -> last | C3 | C4 -> (let v6 = (if (day = (-370)) then (-2) else (2)) in (ignore (sound ((2)) (v6)); (2))))))) in (let m12 = ref (let v11 = (let v8 = limit in (let m10 = ref (let v9 = (ignore (sound (v8) (v8)); v8) in (ignore (read ((3))); v9)) in v8)) in (83)) in (-529)))
