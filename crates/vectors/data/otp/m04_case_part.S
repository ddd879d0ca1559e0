{module, m04_case}.  %% version = 0

{exports, [{lit,1}]}.

{attributes, []}.

{labels, 103}.


{function, lit, 1, 86}.
  {label,85}.
    {line,[{location,"m04_case.erl",103}]}.
    {func_info,{atom,m04_case},{atom,lit},1}.
  {label,86}.
    {test,is_eq_exact,{f,87},[{x,0},{literal,{a,[1,2]}}]}.
    {move,{atom,tuple},{x,0}}.
    return.
  {label,87}.
    {test,is_eq_exact,{f,88},[{x,0},{literal,"hello"}]}.
    {move,{atom,hello},{x,0}}.
    return.
  {label,88}.
    {move,{atom,none},{x,0}}.
    return.
