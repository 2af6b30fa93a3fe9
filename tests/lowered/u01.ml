type t = { mutable f0 : int; mutable f1 : int; mutable f2 : int; mutable f3 : int; mutable f4 : int; mutable f5 : int }
type s = C0 | C1 | C2
external read : int -> int = "READ"
external peek : int -> int = "PEEK"
external sound : int -> int -> int = "SOUND"
external lamp_2 : int -> int -> int = "LAMP_2"
external log : int -> int -> int -> int = "LOG"
external valve : int -> int -> int -> int -> int = "VALVE"
external pump : int -> int -> int -> int -> int -> int = "PUMP"
external flag : int -> bool = "PEEK"
let three = 3
let limit = 414
let below = -14
let day = 24 * 54
let last = limit - 1

let rec f1 (a1 : int) =
  ignore (pump (a1) ((-1)) ((-1)) (a1) ((3)));
  (let b2 = (a1 = three) in (a1 - 179))

and f2 (c1 : s) (t2 : bool) (a3 : int) (a4 : int) =
  ignore (lamp_2 (a4) (a4));
  (let b5 = (not (a3 >= (2) && a3 <= 9)) in (match c1 with | C0 | C1 -> (if (a4 <> a4) then (if (not ((a4 <= (513)) && (a4 >= (-467) && a4 <= 474))) then (ignore (log (a4) ((5)) (a4)); ((match c1 with | C0 | C1 -> (2) | _ -> a4) + 243)) else (match a4 with | 0 | 1 -> (a4 + (129)) | 2 -> a4 | 3 | 4 -> (-466) | _ -> a4)) else a4) | C2 -> (85)))
