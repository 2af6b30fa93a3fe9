type t = { mutable f0 : int; mutable f1 : int; mutable f2 : int; mutable f3 : int }
type s = C0 | C1 | C2 | C3 | C4
external read : int -> int = "READ"
external peek : int -> int = "PEEK"
external sound : int -> int -> int = "SOUND"
external lamp_2 : int -> int -> int = "LAMP_2"
external log : int -> int -> int -> int = "LOG"
external valve : int -> int -> int -> int -> int = "VALVE"
external pump : int -> int -> int -> int -> int -> int = "PUMP"
external flag : int -> bool = "PEEK"
let three = 3
let limit = 503
let below = -19
let day = 24 * 23
let last = limit - 1

let f1 (r : t) (a1 : int) =
  r.f0 <- (~- ((let b2 = (not (flag (4))) in (let m3 = ref ((if (r.f0 = a1) then (ignore (peek (a1))) else (ignore (peek (a1)))); a1) in r.f1))));
  (let b4 = (a1 >= (3) && a1 <= 10) in (if (a1 >= (2) && a1 <= 9) then a1 else (if b4 then (let m6 = ref (if ((not ((-1) > a1)) && (b4 && ((not ((5) < r.f1)) || (below <> a1)))) then (let v5 = limit in v5) else (match a1 with | 0 | 1 -> (if ((1) = a1) then a1 else a1) | _ -> (match three with | -4 -> (5) | -3 | -2 -> a1 | _ -> a1))) in (let b7 = (r.f1 <> a1) in ((if (a1 > limit) then a1 else a1) - 270))) else (match a1 with | 0 -> a1 | 1 | 2 -> (4) | _ -> a1))))
