(* The charge of a day: a tariff has two rates, the step between them, and the days, the total and the most so far. *)
type tariff = {
  mutable low_rate : int;
  mutable high_rate : int;
  mutable step : int;
  mutable days : int;
  mutable total : int;
  mutable most : int;
}

let tariff t morning noon evening night holiday =
  let day = morning + noon in
  let dark = evening + night in
  let used = day + dark in
  let rate = if used > t.step && not holiday then t.high_rate else t.low_rate in
  let charge = used + rate in
  let discount = if holiday then 0 else day - noon in
  t.days <- t.days + 1;
  t.total <- t.total + charge;
  if charge > t.most then t.most <- charge;
  if t.low_rate > t.high_rate then begin
    let rate = t.low_rate in
    t.low_rate <- t.high_rate;
    t.high_rate <- rate;
    t.step <- 500
  end;
  charge - discount
