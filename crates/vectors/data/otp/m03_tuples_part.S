{module, m03_tuples}.  %% version = 0

{exports, [{eq,2}]}.

{attributes, []}.

{labels, 45}.


{function, eq, 2, 27}.
  {label,26}.
    {line,[{location,"m03_tuples.erl",53}]}.
    {func_info,{atom,m03_tuples},{atom,eq},2}.
  {label,27}.
    {test,is_eq_exact,{f,28},[{x,1},{x,0}]}.
    {move,{atom,same},{x,0}}.
    return.
  {label,28}.
    {move,{atom,differ},{x,0}}.
    return.
