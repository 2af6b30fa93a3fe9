type t = { mutable f0 : int; mutable f1 : int; mutable f2 : int; mutable f3 : int; mutable f4 : int; mutable f5 : int }
type s = C0 | C1 | C2
external read : int -> int = "READ"
external peek : int -> int = "PEEK"
external sound : int -> int -> int = "SOUND"
external lamp_2 : int -> int -> int = "LAMP_2"
external log : int -> int -> int -> int = "LOG"
external valve : int -> int -> int -> int -> int = "VALVE"
external pump : int -> int -> int -> int -> int -> int = "PUMP"
external flag : int -> bool = "PEEK"
let three = 3
let limit = 837
let below = -9
let day = 24 * 57
let last = limit - 1

let f1 (t1 : bool) (c2 : s) =
  ignore (read (0));
  (let v3 = (if (((flag (1)) || t1) && (((not ((not (day >= (3) && day <= 10)) && ((((pump (0) (0) ((-2)) ((-2)) (0)) <> (sound (0) ((2)))) || ((-1) >= (read (0)))) && ((valve (0) (0) (0) (0)) >= (580) && (valve (0) (0) (0) (0)) <= 587)))) || (((log (0) ((5)) (0)) <= (255)) && (t1 && (((flag (2)) || (flag 0)) || (not ((valve ((3)) (0) ((1)) ((-2))) = (301))))))) || (flag (360)))) then (if ((peek (0)) = (-1)) then 0 else (4)) else 0) in (0))
