(* Counts a value that lies within the limits of a window, and keeps it; tells whether it does. *)
type window = { low : int; high : int; mutable count : int; mutable last : int }

let window w value =
  let within = value >= w.low && value <= w.high in
  if within then begin
    w.count <- w.count + 1;
    w.last <- value
  end;
  within
