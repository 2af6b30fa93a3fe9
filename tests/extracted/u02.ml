type t = { mutable f0 : int; mutable f1 : int; mutable f2 : int; mutable f3 : int; mutable f4 : int; mutable f5 : int; mutable f6 : int; mutable f7 : int }
external read : int -> int = "READ"
external peek : int -> int = "PEEK"
external sound : int -> int -> int = "SOUND"
external lamp_2 : int -> int -> int = "LAMP_2"
external log : int -> int -> int -> int = "LOG"
external valve : int -> int -> int -> int -> int = "VALVE"
external pump : int -> int -> int -> int -> int -> int = "PUMP"

let f1 () =
  (let m4 = ref (((((if (((read ((let m3 = ref (sound (read ((let b2 = ((~- (valve ((((ignore (log ((4)) ((334)) (0)); 0)) + ((2)))) ((let b1 = (lamp_2 ((((4)) + 131)) ((353)) <> (-977)) in (((2)) - ((573))))) ((if (not ((peek ((~- (0))) + 4) <> (peek (0)))) then ((-339)) else (0))) ((4)))) <= (read (0))) in 0))) ((1))) in (1)))) >= ((read (0)) - (read ((-1))))) && ((valve (0) (0) (0) ((-1))) >= ((valve ((-51)) (0) ((494)) (0)) - (lamp_2 ((-361)) ((985)))))) then (ignore (read ((361)))) else (ignore (peek ((524))))); 0)) + ((2)))) in 0)
