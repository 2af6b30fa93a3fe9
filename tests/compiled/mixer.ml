(* Sets the valves of a mixer and its pump, and tells how much more flows when it is warm. *)
external valve : int -> int -> int -> int -> int = "VALVE"
external pump : int -> int -> int -> int -> int -> int = "PUMP"
external flow : int -> int = "FLOW"

let mixer hot cold open_ =
  let set = valve hot cold 1 0 in
  let part = cold - hot in
  let speed = if open_ then pump set part 2 3 1000 else pump set (-part) 0 1 (-1000) in
  let warm = hot + speed in
  flow warm - flow cold
