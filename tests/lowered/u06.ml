type t = { mutable f0 : int; mutable f1 : int; mutable f2 : int }
type s = C0 | C1 | C2
external read : int -> int = "READ"
external peek : int -> int = "PEEK"
external sound : int -> int -> int = "SOUND"
external lamp_2 : int -> int -> int = "LAMP_2"
external log : int -> int -> int -> int = "LOG"
external valve : int -> int -> int -> int -> int = "VALVE"
external pump : int -> int -> int -> int -> int -> int = "PUMP"
external flag : int -> bool = "PEEK"
let three = 3
let limit = 92
let below = -8
let day = 24 * 32
let last = limit - 1

let rec f1 (t1 : bool) =
  ignore (lamp_2 (0) (0));
  (let v4 = (let v3 = (match last with | 0 -> (let v2 = 0 in v2) | 1 -> 0 | 2 -> 0 | 3 -> 0 | 4 -> 0 | _ -> 0) in v3) in v4)

and f2 (t1 : bool) (r : t) =
  (match (valve ((5)) (0) (0) ((47))) with | -1 -> ((if (((-286) >= (log ((-1)) (0) (0))) && (day > (3))) then ((match r.f1 with | 1 | 2 -> (ignore (valve (0) ((5)) ((5)) (0))) | 3 | 4 | 5 -> ((for i2 = (1) to (4) do (if ((t1 || (r.f0 >= (1) && r.f0 <= 8)) && (((not (r.f0 > (0))) && (((588) > i2) || ((1) <> i2))) && (i2 = (2)))) then (ignore (sound ((-2)) (i2))) else (ignore (log ((4)) (i2) (i2)))); ignore (read (i2)) done)) | 6 -> (ignore (sound ((2)) ((2)))) | _ -> (ignore (lamp_2 ((4)) (0))))))) | 0 -> (ignore (valve (0) (0) (0) (0))) | _ -> (ignore (sound (0) (0))));
  (let v3 = (0) in v3)

and f3 (a1 : int) (t2 : bool) (a3 : int) (t4 : bool) =
  (for i5 = (1) downto three + (-3) do ignore (read (i5)) done);
  (let b6 = (a3 < a3) in (if (last >= (0) && last <= 7) then (match a3 with | -2 -> (~- ((let v7 = (if (a1 >= (5) && a1 <= 12) then ((367) - (43)) else a3) in v7))) | -1 -> (ignore (lamp_2 (a3) ((4))); (if ((-1) = a3) then (if (not (not (flag a3))) then (ignore (read (a3)); a3) else (let b8 = (a3 = (3)) in a3)) else a3)) | 0 -> (if (not (not (below <> (-396)))) then a3 else (if ((742) > below) then (ignore (log (a3) (a3) ((-1))); (if (day = (-2)) then a3 else a3)) else (match a3 with | 3 | 4 | 5 -> (let b9 = (a1 <> (1)) in a3) | 6 -> below | 7 -> (let b10 = ((-781) >= a1) in (0)) | _ -> a3))) | _ -> a3) else (669)))
