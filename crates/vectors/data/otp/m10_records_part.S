{module, m10_records}.  %% version = 0

{exports, [{deflt,0}]}.

{attributes, []}.

{labels, 35}.


{function, deflt, 0, 25}.
  {label,24}.
    {line,[{location,"m10_records.erl",30}]}.
    {func_info,{atom,m10_records},{atom,deflt},0}.
  {label,25}.
    {move,{literal,{q,undefined,{p,0,9,[1,2]}}},{x,0}}.
    return.
