module example.org/starlarkgo

go 1.19

require example.org/starlarklexer v0.0.0

replace example.org/starlarklexer => ../
