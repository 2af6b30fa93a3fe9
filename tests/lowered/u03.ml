type t = { mutable f0 : int; mutable f1 : int; mutable f2 : int; mutable f3 : int; mutable f4 : int }
type s = C0 | C1 | C2
external read : int -> int = "READ"
external peek : int -> int = "PEEK"
external sound : int -> int -> int = "SOUND"
external lamp_2 : int -> int -> int = "LAMP_2"
external log : int -> int -> int -> int = "LOG"
external valve : int -> int -> int -> int -> int = "VALVE"
external pump : int -> int -> int -> int -> int -> int = "PUMP"
external flag : int -> bool = "PEEK"
let three = 3
let limit = 206
let below = -3
let day = 24 * 26
let last = limit - 1

let rec f1 (r : t) =
  r.f0 <- 0;
  (let v1 = (valve ((0)) (0) (0) (0)) in (if (three <> (3)) then (let b2 = (three > (2)) in r.f1) else (~- ((match r.f3 with | -2 -> (if (((2) < v1) && (r.f1 >= (1) && r.f1 <= 8)) then ((v1 + 237) - 168) else (match v1 with | 0 | 1 -> (if (v1 <> v1) then (0) else v1) | 2 -> (match v1 with | 0 -> v1 | 1 -> (3) | 2 -> v1 | 3 -> (5) | 4 -> v1 | 5 -> v1 | _ -> v1) | 3 -> (lamp_2 (v1) (v1)) | 4 -> v1 | _ -> v1)) | -1 -> v1 | 0 | 1 -> v1 | _ -> v1)))))
