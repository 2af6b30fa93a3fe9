type t = { mutable f0 : int }
type s = C0 | C1
external read : int -> int = "READ"
external peek : int -> int = "PEEK"
external sound : int -> int -> int = "SOUND"
external lamp_2 : int -> int -> int = "LAMP_2"
external log : int -> int -> int -> int = "LOG"
external valve : int -> int -> int -> int -> int = "VALVE"
external pump : int -> int -> int -> int -> int -> int = "PUMP"
external flag : int -> bool = "PEEK"
let three = 3
let limit = 424
let below = -12
let day = 24 * 4
let last = limit - 1

let f1 (c1 : s) =
  ignore (log (0) (0) (0));
  (let v4 = ((for i2 = (-1) to (0) do (if (i2 <= i2) then ((if (not (three = (2))) then ((if (i2 <= (1)) then ((if (three < (-950)) then (ignore (peek ((-2)))))))) else (ignore (peek (i2)))))); ignore (lamp_2 (i2) (i2)) done); (let b3 = ((pump (0) (0) (0) (0) (0)) < (3)) in 0)) in v4)

let f2 (r : t) (a1 : int) =
  (for i2 = (0) downto (0) do ignore (peek (i2)); (for i3 = (4) downto (3) do ignore (valve (i3) (i3) (i3) (i3)) done) done);
  (let v5 = (let b4 = ((three <= (1)) || (((flag a1) || (not (not (not (not (not ((r.f0 >= a1) || (a1 >= (2) && a1 <= 9)))))))) && (flag (5)))) in ((~- ((match r.f0 with | 0 -> (~- ((if ((-374) <> a1) then a1 else (-1)))) | 1 -> ((match a1 with | -3 -> a1 | -2 -> a1 | -1 -> a1 | 0 | 1 -> a1 | 2 -> a1 | _ -> (5)) + 162) | 2 -> a1 | 3 -> a1 | 4 -> a1 | 5 -> (-1) | _ -> a1))) - a1)) in v5)
