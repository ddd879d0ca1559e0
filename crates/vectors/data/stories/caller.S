% Calls another module by its name.
{module,caller}.
{exports,[{ask,0}]}.
{attributes,[]}.
{labels,3}.
{function,ask,0,2}.
{label,1}.
{func_info,{atom,caller},{atom,ask},0}.
{label,2}.
{allocate,0,0}.
{call_ext,0,{extfunc,h,v,0}}.
{deallocate,0}.
return.
