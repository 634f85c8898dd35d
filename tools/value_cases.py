"""Values of all types: those that break no rule, in one script for each type, and those that break one, in a script each.

A row of a table is a value as it is spelled in a file, with words for what stands in many: `@4px` is a length of four pixels (so is
`@0.2s` a time), and `@black` and the like stand in WORDS; `@both` is a colour and a length at once. Behind a value may stand what
it refers to: for each reference the steps to it, the path of its target and the target's type. A broken value has its rule before
it.
"""
import json
import re

from script_cases import Case, of, tokens, with_config

SIZE = re.compile(r"@(-?[0-9.]+(?:[eE]-?[0-9]+)?)([A-Za-z]+)")
WORD = re.compile(r"@([a-z_]+)")
WORDS = {
    "black": '{"colorSpace":"srgb","components":[0,0,0]}',
    "half": '{"colorSpace":"srgb","components":[0,0,0],"alpha":0.5}',
    "blue": '{"colorSpace":"srgb","components":[0.2,0.4,0.6]}',
    "hsl": '{"colorSpace":"hsl","components":[360,"none",100],"alpha":0.50,"hex":"#00AAff"}',
    "both": '{"value":1,"unit":"px","colorSpace":"srgb","components":[0,0,0]}',
    "wide": '{"colorSpace":"srgb","components":[0,2,0]}',
    "red": '{"colorSpace":"red","components":[0,0,0]}',
    "fonts": '["Inter","sans-serif"]',
    "heading": '{"fontFamily":@fonts,"fontSize":@1.5rem,"fontWeight":"bold","letterSpacing":@0px,"lineHeight":1.2}',
    "cast": '{"color":@black,"offsetX":@2px,"offsetY":@0px,"blur":@1.50rem,"spread":@-3px}',
    "sunk": '{"color":@black,"offsetX":@2px,"offsetY":@0px,"blur":@1.50rem,"spread":@-3px,"inset":true}',
    "inner": '{"color":@black,"offsetX":@1px,"offsetY":@2px,"blur":@3px,"spread":@4px,"inset":true}',
    "outer": '{"color":@black,"offsetX":@5px,"offsetY":@6px,"blur":@7px,"spread":@8px,"inset":false}',
    "eleven_shadows": ",".join('{"color":@black,"offsetX":@%dpx,"offsetY":@0px,"blur":@0px,"spread":@0px}' % i for i in range(11)),
    "eleven_stops": ",".join(['{"color":@black,"position":0}'] * 11),
    "eleven_lengths": ",".join(["@2px"] * 11),
}

VALUES = {
    "dimension": r"""
@4px
@-1.50rem
@0px
@1e29px
@1e29rem
@1.5rem
@0.0625rem
@-0rem
@1e-30rem
{"unit":"px","value":4,"more":true}
{"unit":"rem","value":-1.50,"x":1}
@-0.0e5px
@2rem
""",
    "duration": r"""
@200ms
@0.2s
@2147483647ms
@2147483648ms
@-2147483648ms
@-2147483649ms
@0.5ms
@0.0005s
@2147483.647s
@2147483.648s
@1.0s
@-0s
@1ms
@-1e-30ms
@999999999999999999999999999999ms
@2s
""",
    "number": r"""
0
0.300000000000000041
1e-7
-0
1e29
-12.5
999999999999999999999999999999
1e-30
1
1.50
1E2
0e99999999999999999999
2
""",
    "cubicBezier": r"""
[0,0,1,1]
[0.25,-3,0.75,400]
[0.420,0,0.58,1.0]
[0.5,-1.5,0.25,2]
[0.25,0.1,0.25,1.0]
[1,1e-7,0,1e29]
[0,2,1,2]
""",
    "fontFamily": r"""
"Inter"
"serif"
"sans-serif"
"monospace"
"cursive"
"fantasy"
"system-ui"
"Serif"
"serif "
""
@fonts
["Größe 2","a, b;","monospace","/* x */"]
"Open Sans"
"a  b"
" a"
"a "
" "
"A-b_c.9 D"
"a&b"
"a<b"
"Größe"
["Inter","x<y"]
["x<y","Inter"]
"😀 x"
["Inter","x"]
["Inter"]
""",
    "fontWeight": r"""
400
"bold"
"extra-black"
1
350.5
1000
450.5
350.0
"hairline"
"regular"
"thin"
"extra-light"
"ultra-light"
"light"
"normal"
"book"
"medium"
"semi-bold"
"demi-bold"
"extra-bold"
"ultra-bold"
"black"
"heavy"
"ultra-black"
400.5
""",
    "color": r"""
@blue
{"colorSpace":"srgb","components":["none",0.4,0.6]}
{"colorSpace":"srgb","components":[0.2,0.4,0.6],"alpha":0.5}
{"colorSpace":"srgb","components":["none","none","none"],"alpha":0.125}
{"colorSpace":"srgb-linear","components":[0,0.5,1]}
{"colorSpace":"srgb-linear","components":[0,"none",1]}
{"colorSpace":"srgb-linear","components":[0,0.5,1],"alpha":0.5}
{"colorSpace":"srgb-linear","components":["none","none","none"],"alpha":0}
{"colorSpace":"display-p3","components":[1,0.25,0]}
{"colorSpace":"display-p3","components":[1,0.25,"none"]}
{"colorSpace":"display-p3","components":[1,0.25,0],"alpha":0.5}
{"colorSpace":"display-p3","components":["none","none","none"],"alpha":0.125}
{"colorSpace":"a98-rgb","components":[0.1,0.2,0.3]}
{"colorSpace":"a98-rgb","components":["none",0.2,0.3]}
{"colorSpace":"a98-rgb","components":[0.1,0.2,0.3],"alpha":0.5}
{"colorSpace":"a98-rgb","components":["none","none","none"],"alpha":0}
{"colorSpace":"prophoto-rgb","components":[0.7,0.8,0.9]}
{"colorSpace":"prophoto-rgb","components":[0.7,"none",0.9]}
{"colorSpace":"prophoto-rgb","components":[0.7,0.8,0.9],"alpha":0.5}
{"colorSpace":"prophoto-rgb","components":["none","none","none"],"alpha":0.125}
{"colorSpace":"rec2020","components":[0.01,0.02,0.03]}
{"colorSpace":"rec2020","components":[0.01,0.02,"none"]}
{"colorSpace":"rec2020","components":[0.01,0.02,0.03],"alpha":0.5}
{"colorSpace":"rec2020","components":["none","none","none"],"alpha":0}
{"colorSpace":"xyz-d65","components":[-1.5,2,0.3]}
{"colorSpace":"xyz-d65","components":["none",2,0.3]}
{"colorSpace":"xyz-d65","components":[-1.5,2,0.3],"alpha":0.5}
{"colorSpace":"xyz-d65","components":["none","none","none"],"alpha":0.125}
{"colorSpace":"xyz-d50","components":[0.9642,1,-0.8251]}
{"colorSpace":"xyz-d50","components":[0.9642,"none",-0.8251]}
{"colorSpace":"xyz-d50","components":[0.9642,1,-0.8251],"alpha":0.5}
{"colorSpace":"xyz-d50","components":["none","none","none"],"alpha":0}
{"colorSpace":"hsl","components":[360,100,50.5]}
{"colorSpace":"hsl","components":[360,100,"none"]}
{"colorSpace":"hsl","components":[360,100,50.5],"alpha":0.5}
{"colorSpace":"hsl","components":["none","none","none"],"alpha":0.125}
{"colorSpace":"hwb","components":[0,20,0]}
{"colorSpace":"hwb","components":["none",20,0]}
{"colorSpace":"hwb","components":[0,20,0],"alpha":0.5}
{"colorSpace":"hwb","components":["none","none","none"],"alpha":0}
{"colorSpace":"lab","components":[100,-40.5,60]}
{"colorSpace":"lab","components":[100,"none",60]}
{"colorSpace":"lab","components":[100,-40.5,60],"alpha":0.5}
{"colorSpace":"lab","components":["none","none","none"],"alpha":0.125}
{"colorSpace":"lch","components":[52,80.25,360]}
{"colorSpace":"lch","components":[52,80.25,"none"]}
{"colorSpace":"lch","components":[52,80.25,360],"alpha":0.5}
{"colorSpace":"lch","components":["none","none","none"],"alpha":0}
{"colorSpace":"oklab","components":[0.4,-0.1,0.2]}
{"colorSpace":"oklab","components":["none",-0.1,0.2]}
{"colorSpace":"oklab","components":[0.4,-0.1,0.2],"alpha":0.5}
{"colorSpace":"oklab","components":["none","none","none"],"alpha":0.125}
{"colorSpace":"oklch","components":[0.7,0.1,45]}
{"colorSpace":"oklch","components":[0.7,"none",45]}
{"colorSpace":"oklch","components":[0.7,0.1,45],"alpha":0.5}
{"colorSpace":"oklch","components":["none","none","none"],"alpha":0}
{"colorSpace":"srgb","components":[1.0,1e0,0.50],"alpha":1.0,"hex":"#3366CC"}
{"colorSpace":"oklch","components":[0.7,0.1,"none"],"alpha":0.5}
{"colorSpace":"oklch","components":[0.7,0.1,"none"],"alpha":0.5,"hex":"#3366cc"}
{"colorSpace":"srgb","components":["none",0.4,0.6],"alpha":0.5}
{"colorSpace":"srgb","components":["none",0.4,0.6],"alpha":0.125,"hex":"#3366CC"}
{"colorSpace":"srgb-linear","components":[0,"none",1],"alpha":0.5}
{"colorSpace":"srgb-linear","components":[0,"none",1],"alpha":0,"hex":"#09afAF"}
{"colorSpace":"display-p3","components":[1,0.25,"none"],"alpha":0.5}
{"colorSpace":"display-p3","components":[1,0.25,"none"],"alpha":0.125,"hex":"#000000"}
{"colorSpace":"a98-rgb","components":["none",0.2,0.3],"alpha":0.5}
{"colorSpace":"a98-rgb","components":["none",0.2,0.3],"alpha":0,"hex":"#ffffff"}
{"colorSpace":"prophoto-rgb","components":[0.7,"none",0.9],"alpha":0.5}
{"colorSpace":"prophoto-rgb","components":[0.7,"none",0.9],"alpha":0.125,"hex":"#3366CC"}
{"colorSpace":"rec2020","components":[0.01,0.02,"none"],"alpha":0.5}
{"colorSpace":"rec2020","components":[0.01,0.02,"none"],"alpha":0,"hex":"#09afAF"}
{"colorSpace":"xyz-d65","components":["none",2,0.3],"alpha":0.5}
{"colorSpace":"xyz-d65","components":["none",2,0.3],"alpha":0.125,"hex":"#000000"}
{"colorSpace":"xyz-d50","components":[0.9642,"none",-0.8251],"alpha":0.5}
{"colorSpace":"xyz-d50","components":[0.9642,"none",-0.8251],"alpha":0,"hex":"#ffffff"}
{"colorSpace":"hsl","components":[360,100,"none"],"alpha":0.5}
{"colorSpace":"hsl","components":[360,100,"none"],"alpha":0.125,"hex":"#3366CC"}
{"colorSpace":"hwb","components":["none",20,0],"alpha":0.5}
{"colorSpace":"hwb","components":["none",20,0],"alpha":0,"hex":"#09afAF"}
{"colorSpace":"lab","components":[100,"none",60],"alpha":0.5}
{"colorSpace":"lab","components":[100,"none",60],"alpha":0.125,"hex":"#000000"}
{"colorSpace":"lch","components":[52,80.25,"none"],"alpha":0.5}
{"colorSpace":"lch","components":[52,80.25,"none"],"alpha":0,"hex":"#ffffff"}
{"colorSpace":"oklab","components":["none",-0.1,0.2],"alpha":0.5}
{"colorSpace":"oklab","components":["none",-0.1,0.2],"alpha":0.125,"hex":"#3366CC"}
{"colorSpace":"oklch","components":[0.7,"none",45],"alpha":0.5}
{"colorSpace":"oklch","components":[0.7,"none",45],"alpha":0,"hex":"#09afAF"}
{"colorSpace":"srgb","components":[0.2,0.4,0.6],"alpha":0.5,"hex":"#ffffff"}
{"colorSpace":"srgb","components":[0.6823529411764706,0,1]}
{"colorSpace":"srgb","components":[0.5,0.5,0.5],"alpha":0}
{"colorSpace":"srgb","components":[0.001960784313725490,0.0019607843137254902,0.998]}
{"colorSpace":"srgb","components":[0.2,0.4,0.6],"alpha":1}
{"colorSpace":"srgb","components":[0.2,0.4,0.6],"hex":"#3366CC"}
{"hex":"#ABCDEF","alpha":0.50,"components":[1,1.0,0.10],"colorSpace":"srgb"}
{"colorSpace":"srgb","components":[0,0.5,1]}
{"colorSpace":"srgb-linear","components":[1,0.1,"none"]}
{"colorSpace":"display-p3","components":[1,0.1,"none"]}
{"colorSpace":"a98-rgb","components":[1,0.1,"none"]}
{"colorSpace":"prophoto-rgb","components":[1,0.1,"none"]}
{"colorSpace":"rec2020","components":[1,0.1,"none"]}
{"colorSpace":"xyz-d65","components":[-5,100000,"none"]}
{"colorSpace":"xyz-d50","components":[-5,100000,"none"]}
{"colorSpace":"hsl","components":[360,100,0]}
{"colorSpace":"hwb","components":[360,100,0]}
{"colorSpace":"lab","components":[100,-500,500]}
{"colorSpace":"lch","components":[100,500,360]}
{"colorSpace":"oklab","components":[1,-9,9]}
{"colorSpace":"oklch","components":[0.7,0.1,"none"],"alpha":0.5,"hex":"#3366CC"}
{"colorSpace":"srgb","components":["none","none","none"],"alpha":1}
{"colorSpace":"srgb","components":[0,0,0],"hex":"#abcdef","alpha":0}
{"colorSpace":"srgb","components":[0,0,0],"hex":"#ABCDEF"}
{"components":[1,1,1],"colorSpace":"srgb","$x":[],"alpha":0.25}
{"colorSpace":"hsl","components":[0,1,2],"hex":"#00AAff"}
""",
    "strokeStyle": r"""
"solid"
"dashed"
"dotted"
"double"
"groove"
"ridge"
"outset"
"inset"
{"dashArray":[@1px],"lineCap":"round"}
{"dashArray":[],"lineCap":"butt"}
{"dashArray":[],"lineCap":"round"}
{"dashArray":[@2px],"lineCap":"butt"}
{"lineCap":"square","dashArray":[@2px,@1.50rem,@0px,@-3px]}
""",
    "border": r"""
{"color":@black,"width":@1px,"style":"solid"}
{"color":@black,"width":@1px,"style":{"dashArray":[],"lineCap":"round"}}
{"style":{"lineCap":"square","dashArray":[@1px,@0.5rem]},"width":{"unit":"px","value":2},"color":{"colorSpace":"srgb","components":[0,0,0],"alpha":0.25}}
{"color":@black,"width":@2px,"style":"solid"}
{"style":"solid","width":@2px,"color":@black}
{"color":@hsl,"width":@1.50rem,"style":{"dashArray":[],"lineCap":"round"}}
{"color":@blue,"width":@1px,"style":"solid"}
""",
    "transition": r"""
{"duration":@200ms,"delay":@0.1s,"timingFunction":[0.5,0,1,1]}
{"duration":@200ms,"delay":@0.2s,"timingFunction":[0.25,0.1,0.25,1]}
{"timingFunction":[0.25,0.1,0.25,1],"delay":@0.2s,"duration":@200ms}
{"duration":@200ms,"delay":@-0.5s,"timingFunction":[0,-2,1,2e1]}
""",
    "shadow": r"""
{"color":@half,"offsetX":@2px,"offsetY":@2px,"blur":@4px,"spread":@0px}
@inner
[@inner,@outer]
[@inner]
[@eleven_shadows]
{"spread":@0px,"inset":false,"blur":@0px,"offsetY":@0px,"offsetX":@0px,"color":@black}
@sunk
{"inset":true,"spread":@-3px,"blur":@1.50rem,"offsetY":@0px,"offsetX":@2px,"color":@black}
@cast
[@cast]
[@sunk,@cast]
[@cast,@sunk,@sunk]
{"color":@black,"offsetX":@2px,"offsetY":@0px,"blur":@1.50rem,"spread":@-3px,"inset":false}
[{"color":@black,"offsetX":@2px,"offsetY":@0px,"blur":@1.50rem,"spread":@-3px,"0":1}]
{"1":0,"color":@black,"offsetX":@2px,"offsetY":@0px,"blur":@1.50rem,"spread":@-3px,"inset":true}
""",
    "gradient": r"""
[{"color":@black,"position":0}]
[{"color":@black,"position":0},{"color":@black,"position":0.333},{"color":@black,"position":1}]
[{"color":@black,"position":-1},{"color":@black,"position":2}]
[{"color":@black,"position":0.5},{"color":@black,"position":1e-30}]
[{"color":@black,"position":0},{"color":@black,"position":1}]
[{"color":@black,"position":0},{"color":@hsl,"position":1}]
[{"color":@black,"position":0.5}]
[{"color":@black,"position":-0.001},{"color":@black,"position":1.001}]
[{"color":@black,"position":-1e29},{"color":@black,"position":1e29},{"color":@black,"position":1e-30}]
[{"color":@black,"position":-0},{"color":@black,"position":1.0},{"color":@black,"position":0.50}]
[{"color":@black,"position":1.0000000000000000000000000001},{"color":@black,"position":0.999999999999999999999999999999}]
[{"position":0.25,"color":@hsl,"other":1}]
""",
    "typography": r"""
@heading
{"fontFamily":"Inter","fontSize":@16px,"fontWeight":450,"letterSpacing":@-0.5rem,"lineHeight":1}
{"fontFamily":"a<b","fontSize":@16px,"fontWeight":450,"letterSpacing":@0px,"lineHeight":1}
{"fontFamily":"Inter","fontSize":@16px,"fontWeight":450.5,"letterSpacing":@0px,"lineHeight":1}
{"fontFamily":"Inter","fontSize":@16px,"fontWeight":"normal","letterSpacing":@0.25px,"lineHeight":-1.5}
{"fontFamily":@fonts,"fontSize":@1.50rem,"fontWeight":"bold","letterSpacing":@0px,"lineHeight":1.2}
{"lineHeight":1.2,"letterSpacing":@0px,"fontWeight":"bold","fontSize":@1.50rem,"fontFamily":@fonts}
{"fontFamily":"Inter","fontSize":@2px,"fontWeight":350.5,"letterSpacing":@-3px,"lineHeight":-1}
{"fontFamily":"Inter","fontSize":@2px,"fontWeight":1000,"letterSpacing":@-3px,"lineHeight":0}
""",
}

LINKED = {
    "dimension": r"""
@4px|>space.2 xl>dimension
@4px|value>n>number
@both|>c>color
""",
    "duration": r"""
@0.2s|>größe>duration
""",
    "number": r"""
1|>n1>number
1|>w>fontWeight
""",
    "cubicBezier": r"""
[0,0,1,1]|>ease>cubicBezier
""",
    "fontFamily": r"""
"Inter"|>f>fontFamily
["Inter","x"]|0>f>fontFamily
""",
    "fontWeight": r"""
400|>w>fontWeight
400|>n>number
""",
    "color": r"""
@black|>c.$root>color
@black|>c.accent>color
@both|>d>dimension
""",
    "strokeStyle": r"""
{"dashArray":[],"lineCap":"butt"}|>s>strokeStyle
"solid"|>s>strokeStyle
"solid"|>f>fontFamily
""",
    "border": r"""
{"color":@black,"width":@1px,"style":"solid"}|color>c>color
{"color":@black,"width":@1px,"style":"solid"}|color>c>color;width>w>dimension;style>s>strokeStyle
{"color":@black,"width":@1px,"style":"solid"}|>b.$root>border
{"color":@black,"width":@1px,"style":{"dashArray":[],"lineCap":"round"}}|>b>border;color>c>color
{"color":@both,"width":@both,"style":"solid"}|color>d>dimension;width>c>color
{"colorSpace":"srgb","components":[0,0,0],"color":@black,"width":@1px,"style":"solid"}|>w>color;color>c>color
""",
    "transition": r"""
{"duration":@200ms,"delay":@0.1s,"timingFunction":[0.5,0,1,1]}|delay>d>duration
{"duration":@200ms,"delay":@0.1s,"timingFunction":[0.5,0,1,1]}|duration>a>duration;delay>b>duration;timingFunction>c>cubicBezier
{"duration":@200ms,"delay":@0.1s,"timingFunction":[0.5,0,1,1]}|>x>transition
""",
    "shadow": r"""
@inner|color>color>color;offsetX>offsetx>dimension;offsetY>offsety>dimension;blur>blur>dimension;spread>spread>dimension
[@inner]|0/color>color>color;0/offsetX>offsetx>dimension;0/offsetY>offsety>dimension;0/blur>blur>dimension;0/spread>spread>dimension
[@inner,@outer]|1/color>c>color;0/blur>b>dimension
@inner|>s>shadow
[@eleven_shadows]|10/offsetX>x>dimension;1/offsetX>y>dimension
{"color":@both,"offsetX":@both,"offsetY":@2px,"blur":@3px,"spread":@4px,"inset":true}|color>d>dimension;offsetX>c>color
""",
    "gradient": r"""
[{"color":@black,"position":0},{"color":@black,"position":1}]|1/color>c>color
[{"color":@black,"position":0}]|0/color>c>color
[{"color":@black,"position":0},{"color":@black,"position":1}]|1/position>p>number
[{"color":@black,"position":0},{"color":@black,"position":1}]|>g>gradient
[{"color":@both,"position":0}]|0/color>d>dimension
""",
    "typography": r"""
@heading|fontSize>fs>dimension
@heading|>h>typography
@heading|fontFamily>a>fontFamily;fontSize>b>dimension;fontWeight>c>fontWeight;letterSpacing>d>dimension;lineHeight>e>number
{"fontFamily":@fonts,"fontSize":@1.5rem,"fontWeight":700,"letterSpacing":@0px,"lineHeight":1.2}|fontWeight>c>number;lineHeight>e>fontWeight
@heading|letterSpacing>d.$root>dimension
{"fontFamily":"bold","fontSize":@1.5rem,"fontWeight":"bold","letterSpacing":@0px,"lineHeight":1.2}|fontFamily>w>fontWeight;fontWeight>f>fontFamily
""",
}

BROKEN = {
    "dimension": r"""
dimension-unit @4em
dimension-unit @4PX
value-shape {"unit":"em"}
value-shape {"value":4}
value-shape {}
value-shape {"value":"4","unit":"em"}
number-wide {"value":1e30,"unit":7}
number-wide @1e-31px
value-shape {"value":4,"unit":null}
value-shape "4px"
value-shape 4
value-shape null
value-shape [4,"px"]
""",
    "duration": r"""
duration-unit @4px
value-shape {"value":true,"unit":"s"}
value-shape {"unit":"s"}
value-shape {"value":1}
value-shape []
""",
    "number": r"""
number-wide 1e30
number-wide 1e-31
value-shape "1"
value-shape true
value-shape {}
value-shape [1]
""",
    "cubicBezier": r"""
bezier-range [1.1,0,1,1]
bezier-range [-1e-30,0,2,1]
number-wide [0,0,1.000000000000000000000000000001,1]
value-shape [0,0,1]
value-shape [0,0,1,1,1]
value-shape [2,0,0,"1"]
number-wide [2,0,1e30,0]
value-shape [2,0,null,1e30]
value-shape []
value-shape {"0":0}
value-shape "ease"
bezier-range [0,2,1.5,2]
""",
    "fontFamily": r"""
value-shape []
value-shape ["a",1]
value-shape ["a","b",["c"]]
value-shape {}
value-shape 1
value-shape ["0","1","2","3","4","5","6","7","8","9",0]
value-shape null
""",
    "fontWeight": r"""
weight-word "bolder"
weight-word "Bold"
weight-word ""
weight-range 0
weight-range 0.999999999999999999999999999999
weight-range 1000.5
weight-range -400
number-wide 1e30
value-shape null
value-shape ["bold"]
value-shape {}
""",
    "color": r"""
color-range {"colorSpace":"srgb","components":[1.5,0,0]}
color-range {"colorSpace":"srgb","components":[0,-1e-30,2]}
value-shape {"colorSpace":"srgb","components":[0,0,2,0]}
value-shape {"colorSpace":"srgb","components":[0,0]}
color-range {"colorSpace":"srgb-linear","components":[0,0,1.01]}
color-range {"colorSpace":"display-p3","components":[0,0,1.01]}
color-range {"colorSpace":"a98-rgb","components":[0,0,1.01]}
color-range {"colorSpace":"prophoto-rgb","components":[0,0,1.01]}
color-range {"colorSpace":"rec2020","components":[0,0,1.01]}
color-range {"colorSpace":"hsl","components":[360.5,0,0]}
color-range {"colorSpace":"hsl","components":[-1,0,0]}
color-range {"colorSpace":"hsl","components":[0,100.1,0]}
color-range {"colorSpace":"hsl","components":[0,0,-0.1]}
color-range {"colorSpace":"hwb","components":[360.5,0,0]}
color-range {"colorSpace":"hwb","components":[-1,0,0]}
color-range {"colorSpace":"hwb","components":[0,100.1,0]}
color-range {"colorSpace":"hwb","components":[0,0,-0.1]}
color-range {"colorSpace":"lab","components":[101,0,0]}
color-range {"colorSpace":"lch","components":[0,-1,0]}
color-range {"colorSpace":"lch","components":[0,0,361]}
color-range {"colorSpace":"oklab","components":[1.5,0,0]}
color-range {"colorSpace":"oklch","components":[0,-1,0]}
color-range {"colorSpace":"oklch","components":[2,-1,0]}
color-range {"colorSpace":"oklch","components":[1,9,361]}
color-space {"colorSpace":"cmyk","components":[0,0,0]}
color-space {"colorSpace":"SRGB","components":[0,0,0]}
color-space {"colorSpace":"","components":[0,0,0]}
value-shape {"colorSpace":"srgb","components":[2,0,"None"]}
number-wide {"colorSpace":"srgb","components":[2,0,1e30]}
value-shape {"colorSpace":"srgb","components":[2,null,0]}
color-alpha {"colorSpace":"srgb","components":[0,0,0],"alpha":1.1}
color-alpha {"colorSpace":"srgb","components":[0,0,0],"alpha":-1}
value-shape {"colorSpace":"srgb","components":[0,0,0],"alpha":"1"}
number-wide {"colorSpace":"srgb","components":[0,0,0],"alpha":1e-31}
value-shape {"colorSpace":"srgb","components":[0,0,0],"alpha":null,"hex":7}
color-hex {"colorSpace":"srgb","components":[0,0,0],"hex":"abcdef"}
color-hex {"colorSpace":"srgb","components":[0,0,0],"hex":"#abcdeg"}
color-hex {"colorSpace":"srgb","components":[0,0,0],"hex":"#abcde"}
color-hex {"colorSpace":"srgb","components":[0,0,0],"hex":"#abcdef0"}
value-shape {"colorSpace":"srgb","components":[0,0,0],"hex":7}
color-alpha {"colorSpace":"srgb","components":[0,0,0],"hex":"","alpha":9}
color-hex {"colorSpace":"srgb","components":[0,0,0],"hex":"ébcdef"}
value-shape {"components":[0,0,0]}
value-shape {"colorSpace":"srgb"}
value-shape {"colorSpace":7,"components":7}
value-shape {"colorSpace":"srgb","components":7}
value-shape {"colorSpace":"srgb","components":{}}
color-space {"components":7,"colorSpace":"x"}
value-shape "#abcdef"
value-shape []
""",
    "strokeStyle": r"""
stroke-word "Solid"
stroke-word ""
stroke-word "wavy"
value-shape 7
value-shape null
value-shape []
value-shape {}
value-shape {"lineCap":"round"}
value-shape {"dashArray":[@2px]}
value-shape {"dashArray":@2px,"lineCap":"round"}
dimension-unit {"dashArray":[@2px,@2em],"lineCap":"round"}
number-wide {"dashArray":[@2px,@2px,@1e30px],"lineCap":"flat"}
value-shape {"dashArray":[@2px,"2px"],"lineCap":"round"}
dimension-unit {"lineCap":"flat","dashArray":[@2em]}
value-shape {"lineCap":"flat","dashArray":[@eleven_lengths,{"value":1}]}
stroke-cap {"dashArray":[],"lineCap":"Round"}
value-shape {"dashArray":[],"lineCap":3}
""",
    "border": r"""
value-shape {"width":@2px,"style":"solid"}
value-shape {"color":"red","width":@2px,"style":"solid"}
color-range {"color":@wide,"width":@2px,"style":"solid"}
value-shape {"color":@black,"style":"solid"}
value-shape {"color":@black,"width":2,"style":"solid"}
dimension-unit {"color":@black,"width":@2em,"style":"solid"}
value-shape {"color":@black,"width":@2px}
stroke-word {"color":@black,"width":@2px,"style":"bold"}
value-shape {"color":@black,"width":@2px,"style":null}
color-range {"style":"solid","width":2,"color":@wide}
color-range {"style":"bold","width":@2px,"color":@wide}
dimension-unit {"style":"bold","width":@2em,"color":@black}
dimension-unit {"color":@hsl,"width":@1.50rem,"style":{"dashArray":[@2px,@2em],"lineCap":"round"}}
color-space {"style":"wavy","width":@2em,"color":@red}
value-shape {"style":"wavy","width":@2em}
value-shape {}
value-shape []
value-shape "solid"
""",
    "transition": r"""
value-shape {"delay":@0.2s,"timingFunction":[0.25,0.1,0.25,1]}
value-shape {"duration":200,"delay":@0.2s,"timingFunction":[0.25,0.1,0.25,1]}
duration-unit {"duration":@1min,"delay":@0.2s,"timingFunction":[0.25,0.1,0.25,1]}
value-shape {"duration":@200ms,"timingFunction":[0.25,0.1,0.25,1]}
value-shape {"duration":@200ms,"delay":null,"timingFunction":[0.25,0.1,0.25,1]}
value-shape {"duration":@200ms,"delay":{"unit":"s"},"timingFunction":[0.25,0.1,0.25,1]}
value-shape {"duration":@200ms,"delay":@0.2s}
value-shape {"duration":@200ms,"delay":@0.2s,"timingFunction":[0,0,0]}
bezier-range {"duration":@200ms,"delay":@0.2s,"timingFunction":[0,0,1.5,0]}
duration-unit {"timingFunction":[0.25,0.1,0.25,1],"delay":null,"duration":@1min}
duration-unit {"timingFunction":[0,0,0],"delay":@0.2s,"duration":@1min}
value-shape {"timingFunction":[0,0,0],"delay":{"unit":"s"},"duration":@200ms}
value-shape {"timingFunction":[0,0,2,"x"],"duration":@200ms,"delay":@200ms}
number-wide {"timingFunction":[0,0,2,1e31],"duration":@200ms,"delay":@200ms}
bezier-range {"timingFunction":[-0.1,0,2,0],"duration":@200ms,"delay":@200ms}
duration-unit {"timingFunction":[0.25,0.1,0.25,1],"duration":@2px,"delay":@1min}
value-shape {}
value-shape null
value-shape [{"duration":@200ms,"delay":@200ms,"timingFunction":[0.25,0.1,0.25,1]}]
""",
    "shadow": r"""
value-shape {"offsetX":@2px,"offsetY":@0px,"blur":@1.50rem,"spread":@-3px,"inset":true}
color-space {"color":@red,"offsetX":@2px,"offsetY":@0px,"blur":@1.50rem,"spread":@-3px,"inset":true}
value-shape {"color":"x","offsetX":@2px,"offsetY":@0px,"blur":@1.50rem,"spread":@-3px,"inset":true}
value-shape {"color":@black,"offsetY":@0px,"blur":@1.50rem,"spread":@-3px,"inset":true}
dimension-unit {"color":@black,"offsetX":@2em,"offsetY":@0px,"blur":@1.50rem,"spread":@-3px,"inset":true}
value-shape {"color":@black,"offsetX":[],"offsetY":@0px,"blur":@1.50rem,"spread":@-3px,"inset":true}
value-shape {"color":@black,"offsetX":@2px,"blur":@1.50rem,"spread":@-3px,"inset":true}
value-shape {"color":@black,"offsetX":@2px,"offsetY":{"value":true,"unit":"em"},"blur":@1.50rem,"spread":@-3px,"inset":true}
number-wide {"color":@black,"offsetX":@2px,"offsetY":@1e30px,"blur":@1.50rem,"spread":@-3px,"inset":true}
value-shape {"color":@black,"offsetX":@2px,"offsetY":@0px,"spread":@-3px,"inset":true}
value-shape {"color":@black,"offsetX":@2px,"offsetY":@0px,"blur":{},"spread":@-3px,"inset":true}
dimension-unit {"color":@black,"offsetX":@2px,"offsetY":@0px,"blur":@2em,"spread":@-3px,"inset":true}
value-shape {"color":@black,"offsetX":@2px,"offsetY":@0px,"blur":@1.50rem,"inset":true}
value-shape {"color":@black,"offsetX":@2px,"offsetY":@0px,"blur":@1.50rem,"spread":0,"inset":true}
value-shape {"color":@black,"offsetX":@2px,"offsetY":@0px,"blur":@1.50rem,"spread":{"value":1},"inset":true}
value-shape {"color":@black,"offsetX":@2px,"offsetY":@0px,"blur":@1.50rem,"spread":@-3px,"inset":1}
value-shape {"color":@black,"offsetX":@2px,"offsetY":@0px,"blur":@1.50rem,"spread":@-3px,"inset":"true"}
value-shape {"inset":true,"spread":@-3px,"blur":@1.50rem,"offsetY":@0px,"offsetX":@2em,"color":"x"}
value-shape {"inset":true,"spread":@-3px,"blur":@1.50rem,"offsetY":{"value":true,"unit":"em"},"offsetX":@2px,"color":"x"}
value-shape {"inset":true,"spread":@-3px,"blur":{},"offsetY":@0px,"offsetX":@2px,"color":"x"}
value-shape {"inset":true,"spread":0,"blur":@1.50rem,"offsetY":@0px,"offsetX":@2px,"color":"x"}
value-shape {"inset":1,"spread":@-3px,"blur":@1.50rem,"offsetY":@0px,"offsetX":@2px,"color":"x"}
value-shape {"inset":true,"spread":@-3px,"blur":@1.50rem,"offsetY":{"value":true,"unit":"em"},"offsetX":[],"color":@black}
value-shape {"inset":true,"spread":@-3px,"blur":{},"offsetY":@0px,"offsetX":[],"color":@black}
value-shape {"inset":true,"spread":0,"blur":@1.50rem,"offsetY":@0px,"offsetX":[],"color":@black}
value-shape {"inset":1,"spread":@-3px,"blur":@1.50rem,"offsetY":@0px,"offsetX":[],"color":@black}
number-wide {"inset":true,"spread":@-3px,"blur":{},"offsetY":@1e30px,"offsetX":@2px,"color":@black}
number-wide {"inset":true,"spread":0,"blur":@1.50rem,"offsetY":@1e30px,"offsetX":@2px,"color":@black}
number-wide {"inset":1,"spread":@-3px,"blur":@1.50rem,"offsetY":@1e30px,"offsetX":@2px,"color":@black}
dimension-unit {"inset":true,"spread":0,"blur":@2em,"offsetY":@0px,"offsetX":@2px,"color":@black}
dimension-unit {"inset":1,"spread":@-3px,"blur":@2em,"offsetY":@0px,"offsetX":@2px,"color":@black}
value-shape {"inset":1,"spread":{"value":1},"blur":@1.50rem,"offsetY":@0px,"offsetX":@2px,"color":@black}
value-shape {"color":@black,"offsetX":@2px,"offsetY":@0px,"blur":@1.50rem,"spread":@-3px,"inset":null}
value-shape []
value-shape "none"
value-shape {}
value-shape [{}]
value-shape [@sunk,7]
value-shape [7,@sunk]
dimension-unit [@sunk,{"color":@black,"offsetX":@2em,"offsetY":@0px,"blur":@1.50rem,"spread":@-3px,"inset":true}]
color-range [@sunk,{"color":@wide},7]
value-shape {"0":1}
value-shape {"color":@black,"offsetX":@2px,"offsetY":@0px,"blur":@1.50rem,"spread":@-3px,"0":@cast}
value-shape {"0":null,"color":7}
""",
    "gradient": r"""
value-shape []
value-shape {}
value-shape {"color":@black,"position":0}
value-shape null
value-shape 7
value-shape [{}]
value-shape [7]
value-shape [[],{"color":@black,"position":0}]
value-shape [{"color":@black,"position":0},{"color":@black}]
value-shape [{"color":@black,"position":0},{"position":2}]
value-shape [{"color":7,"position":0},1]
color-range [{"color":@black,"position":0},{"color":@wide,"position":1}]
color-space [{"color":@red,"position":"x"}]
value-shape [{"color":@black,"position":"0.5"}]
value-shape [{"color":@black,"position":null},{"color":7,"position":0}]
number-wide [{"color":@black,"position":1e30}]
number-wide [{"color":@black,"position":-1e31},{"color":7,"position":0}]
number-wide [{"color":@black,"position":1e-31}]
color-range [{"position":true,"color":@wide}]
value-shape [{"position":1e99}]
color-range [@eleven_stops,{"color":@wide,"position":7}]
value-shape [@eleven_stops,{"color":@black,"position":0},{"color":@black,"position":true}]
""",
    "typography": r"""
value-shape {"fontSize":@1.50rem,"fontWeight":"bold","letterSpacing":@0px,"lineHeight":1.2}
value-shape {"fontFamily":[],"fontSize":@1.50rem,"fontWeight":"bold","letterSpacing":@0px,"lineHeight":1.2}
value-shape {"fontFamily":["a",7],"fontSize":@1.50rem,"fontWeight":"bold","letterSpacing":@0px,"lineHeight":1.2}
value-shape {"fontFamily":@fonts,"fontWeight":"bold","letterSpacing":@0px,"lineHeight":1.2}
value-shape {"fontFamily":@fonts,"fontSize":16,"fontWeight":"bold","letterSpacing":@0px,"lineHeight":1.2}
dimension-unit {"fontFamily":@fonts,"fontSize":@2em,"fontWeight":"bold","letterSpacing":@0px,"lineHeight":1.2}
value-shape {"fontFamily":@fonts,"fontSize":@1.50rem,"letterSpacing":@0px,"lineHeight":1.2}
weight-word {"fontFamily":@fonts,"fontSize":@1.50rem,"fontWeight":"heavier","letterSpacing":@0px,"lineHeight":1.2}
weight-range {"fontFamily":@fonts,"fontSize":@1.50rem,"fontWeight":1001,"letterSpacing":@0px,"lineHeight":1.2}
value-shape {"fontFamily":@fonts,"fontSize":@1.50rem,"fontWeight":"bold","lineHeight":1.2}
dimension-unit {"fontFamily":@fonts,"fontSize":@1.50rem,"fontWeight":"bold","letterSpacing":@200ms,"lineHeight":1.2}
value-shape {"fontFamily":@fonts,"fontSize":@1.50rem,"fontWeight":"bold","letterSpacing":{"unit":"px"},"lineHeight":1.2}
value-shape {"fontFamily":@fonts,"fontSize":@1.50rem,"fontWeight":"bold","letterSpacing":@0px}
value-shape {"fontFamily":@fonts,"fontSize":@1.50rem,"fontWeight":"bold","letterSpacing":@0px,"lineHeight":@2px}
number-wide {"fontFamily":@fonts,"fontSize":@1.50rem,"fontWeight":"bold","letterSpacing":@0px,"lineHeight":1e30}
value-shape {"lineHeight":1.2,"letterSpacing":@0px,"fontWeight":"bold","fontSize":16,"fontFamily":["a",7]}
value-shape {"lineHeight":1.2,"letterSpacing":@0px,"fontWeight":"heavier","fontSize":@1.50rem,"fontFamily":["a",7]}
value-shape {"lineHeight":1.2,"letterSpacing":@200ms,"fontWeight":"bold","fontSize":@1.50rem,"fontFamily":["a",7]}
value-shape {"lineHeight":@2px,"letterSpacing":@0px,"fontWeight":"bold","fontSize":@1.50rem,"fontFamily":["a",7]}
dimension-unit {"lineHeight":1.2,"letterSpacing":@0px,"fontWeight":"heavier","fontSize":@2em,"fontFamily":@fonts}
dimension-unit {"lineHeight":1.2,"letterSpacing":@200ms,"fontWeight":"bold","fontSize":@2em,"fontFamily":@fonts}
dimension-unit {"lineHeight":@2px,"letterSpacing":@0px,"fontWeight":"bold","fontSize":@2em,"fontFamily":@fonts}
weight-range {"lineHeight":1.2,"letterSpacing":@200ms,"fontWeight":1001,"fontSize":@1.50rem,"fontFamily":@fonts}
weight-range {"lineHeight":@2px,"letterSpacing":@0px,"fontWeight":1001,"fontSize":@1.50rem,"fontFamily":@fonts}
value-shape {"lineHeight":@2px,"letterSpacing":{"unit":"px"},"fontWeight":"bold","fontSize":@1.50rem,"fontFamily":@fonts}
weight-range {"fontFamily":"Inter","fontSize":@2px,"fontWeight":0.999,"letterSpacing":@-3px,"lineHeight":1}
value-shape {"lineHeight":"x","letterSpacing":7,"fontWeight":true,"fontSize":7,"fontFamily":7}
value-shape {}
value-shape []
value-shape "Inter"
""",
}

# Families with signs that platforms quote, escape or leave out, each alone and the last behind another.
FAMILIES = [
    'say "hi"',
    "back\\slash",
    '\\"',
    "'",
    "}",
    "\u00a0\ufffd\U0010ffff",
    "\t",
    "a\nb",
    "\u001f",
    "\u007f",
    "\ufffe",
    "x\uffff",
    'a"b',
    "a\\b",
    ["Inter", "\u007f"],
]


def spelled(row):
    """The row with its words spelled out."""
    text = row
    while WORD.search(text):
        text = WORD.sub(lambda found: WORDS[found[1]], text)
    return SIZE.sub(r'{"value":\1,"unit":"\2"}', text)


def rows(table, kind):
    return [spelled(row) for row in table.get(kind, "").split("\n") if row]


def replaced(value, steps, part):
    """The value with another part at the steps, and the part that stood there."""
    if not steps:
        return part, value
    step = int(steps[0]) if isinstance(value, list) else steps[0]
    value[step], old = replaced(value[step], steps[1:], part)
    return value, old


def grafted(group, names, token):
    """Puts a token into a group."""
    for name in names[:-1]:
        group = group.setdefault(name, {})
    group[names[-1]] = token


def of_kind(kind, value):
    return {"$type": kind, "$value": value}


def with_links(name, kind, text, links):
    """A token that refers to others, and the group of these. Under the value as a whole, which comes last, the others stand."""
    value, targets = json.loads(text), {}
    for link in sorted(links.split(";"), key=lambda it: it.startswith(">")):
        trail, target, target_kind = link.split(">")
        reference = "{to.%s.%s}" % (name, target)
        value, part = replaced(value, trail.split("/") if trail else [], reference)
        grafted(targets, target.split("."), of_kind(target_kind, part))
    return of_kind(kind, value), targets


def sound(kind):
    """A file with a token for each value of a type that breaks no rule, and for each target."""
    members = [f'"v{i}":{{"$value":{text}}}' for i, text in enumerate(rows(VALUES, kind))]
    targets = {}
    for i, row in enumerate(rows(LINKED, kind)):
        token, targets[f"l{i}"] = with_links(f"l{i}", kind, *row.split("|"))
        members.append(f'"l{i}":{json.dumps(token)}')
    if kind == "fontFamily":
        members += [f'"q{i}":{{"$value":{json.dumps(it)}}}' for i, it in enumerate(FAMILIES)]
    return tokens('{"%s":{"$type":"%s",\n%s},\n"to":%s}\n' % (kind, kind, ",\n".join(members), json.dumps(targets)))


def shows(name, files):
    return Case(name, "build", None, [files])


def breaks(kind, number, row):
    """A case of one value that breaks a rule."""
    rule, value = row.split(" ", 1)
    return Case(f"{kind} {number}: {rule}", "build", rule, [of(kind, value)])


def token(kind, value, more=""):
    """A token with its own type, and members behind its value."""
    return '{"$type":"%s","$value":%s%s}' % (kind, spelled(value), more)


def group(members):
    """A group of the members of a text for each."""
    return "{%s}" % ",\n".join(f"{json.dumps(name)}:{text}" for name, text in members.items())


ONE = token("number", "1")
HEADING = {
    "fs": token("dimension", "@1.5rem"),
    "h": token("typography", WORDS["heading"].replace("@1.5rem", '"{fs}"')),
    "u": token("typography", '"{h}"'),
}
SHADOW = token("shadow", '{"color":@black,"offsetX":@2px,"offsetY":@2px,"blur":@4px,"spread":@0px}')
OPEN = '{"color":"{c}","width":@1px,"style":"{s}"}'
NAMES = {
    "a": group({"b-c": ONE}),
    "b": token("border", '{"color":"{c}","width":@1px,"style":"solid"}'),
    "c": token("color", "@blue"),
    "color": group({"accent": group({"$root": ONE})}),
    "d": token("border", '{"color":@black,"width":@1px,"style":{"dashArray":[],"lineCap":"round"}}'),
    "g": token("number", '{"$ref":"#/c/$value/components/1"}'),
    "größe": group({"2 xl": token("number", '"{größe.3 xl}"'), "3 xl": ONE}),
    "n0": token("number", '"{n1}"'),
    "n1": token("number", "1e-7"),
    "n255": ONE,
    "s": token("shadow", '{"color":@half,"offsetX":@2px,"offsetY":@2px,"blur":@4px,"spread":@0px}'),
    "space": group({"s": token("dimension", "@4px")}),
    "$root": ONE,
    "2xl": ONE,
    **HEADING,
}
# Of each type one that Android leaves out or Swift does, under names that platforms change.
OTHERS = {
    "2xl": token("cubicBezier", "[0,0,1,1]"),
    "a-b": group({"c": token("number", "2")}),
    "t": token("cubicBezier", "[0.5,0,1,1]"),
    "u": token("strokeStyle", '"solid"'),
    "v": token("border", '{"color":@black,"width":@1px,"style":"solid"}'),
    "w": token("transition", '{"duration":@200ms,"delay":@0.1s,"timingFunction":[0.5,0,1,1]}'),
    "x": SHADOW,
    "y": token("gradient", '[{"color":@black,"position":0}]'),
    "say \"a\"": group({"b\\c": group({"\n\u001f\u007f": ONE})}),
}
PLAIN = {
    "d": token("border", OPEN),
    "c": token("color", "@black"),
    "n0": token("number", '"{n1}"'),
    "n1": ONE,
    "s": token("strokeStyle", '"dotted"'),
    **HEADING,
}
# What a JSON file repeats of a token.
SAID = {
    "a": token("number", "1", ',"$description":"x","$extensions":{"k": 1}'),
    "b": token("number", "1", ',"$description":"","$extensions":{},"$deprecated":""'),
    "c": token(
        "number",
        "1",
        ',"$description":"say \\"hi\\"\\\\ \\té","$extensions":{ "a" : [1e400, null, "\\u0041"] },"$deprecated":"use 😀 \\"b\\""',
    ),
    "d": group({"$root": token("number", "1", ',"$deprecated":true')}),
    "top": '{"$deprecated":true,"in":{"x":%s}}' % token("dimension", "@5px"),
}


def settled():
    """Cases of names and settings, with the values of few tokens."""
    rooted = group({"a": group({"$root": token("number", '"{b.$root}"')}), "b": group({"$root": ONE}), **HEADING})
    weights = group({name: token("fontWeight", "1") for name in "ab"})
    return [
        shows("values under names", tokens(group(NAMES))),
        shows("values under other names", tokens(group(OTHERS))),
        shows("values under a prefix", with_config("prefix = 'ds'\nrem_base = 16\n", rooted)),
        shows("values without references", with_config("prefix = ''\nreferences = false\n", group(PLAIN))),
        shows("values under a prefix, without references", with_config("prefix = 'ds'\nreferences = false\n", group(HEADING))),
        shows("lengths over a base of ten", with_config("rem_base = 10\n", group(HEADING))),
        shows("lengths over a base of a hundred", with_config("prefix = 'ds'\nrem_base = 100\n", group(HEADING))),
        shows("two weights", tokens(weights)),
        shows("what is said of tokens", tokens(group(SAID))),
    ]


# For each type a value that is written on each platform that has the type.
WRITTEN = {
    "color": "@blue",
    "dimension": "@4px",
    "duration": "@200ms",
    "number": "1",
    "fontWeight": "400",
    "fontFamily": '"Inter"',
    "typography": "@heading",
    "cubicBezier": "[0,0,1,1]",
    "strokeStyle": '"solid"',
    "border": '{"color":@black,"width":@1px,"style":"solid"}',
    "transition": '{"duration":@200ms,"delay":@0.1s,"timingFunction":[0.5,0,1,1]}',
    "shadow": "@inner",
    "gradient": '[{"color":@black,"position":0}]',
}
PARTS = ("font-family", "font-size", "font-weight", "letter-spacing", "line-height")
DASHES = token("strokeStyle", '{"dashArray":[@1px],"lineCap":"round"}')
# Values that have a name in Swift and none on Android, and the types that have none on either.
SWIFT_ALONE = {"cubicBezier": "[0,0,1,1]", "fontWeight": "450.5", "duration": "@0.5ms", "fontFamily": '"a<b"'}
NEITHER = ("strokeStyle", "border", "transition", "shadow", "gradient")
ANDROID = ("color", "dimension", "duration", "number", "fontWeight", "fontFamily", "typography")


def clash(name, members):
    return Case(f"names that clash: {name}", "build", "name-clash", [tokens(group(members))])


def spelled_alike(kind, value):
    """Two tokens of a value that have one name on Android and in Swift, and two in a style sheet."""
    return {"a-b": token(kind, value), "a_b": token(kind, value)}


def at_two_paths(text):
    """A token at two paths that have one name on each platform."""
    return {"a": group({"b-c": text}), "a-b": group({"c": text})}


def clashes():
    """Cases of names that are the same on a platform, for all that gives a name, and of those that nothing gives."""
    unused = {**at_two_paths(DASHES), "a_b": group({"c": token("fontFamily", '"\\u0007"')})}
    light = {"h": token("typography", WORDS["heading"].replace('"bold"', "450.5"))}
    heading = {"h": token("typography", "@heading")}
    return [
        *[clash(f"{kind} in a style sheet", at_two_paths(token(kind, it))) for kind, it in WRITTEN.items()],
        *[clash(f"{kind} on Android", spelled_alike(kind, WRITTEN[kind])) for kind in ANDROID],
        *[clash(f"{kind} in Swift", spelled_alike(kind, it)) for kind, it in SWIFT_ALONE.items()],
        *[clash(f"{part} in a style sheet", {**heading, f"h-{part}": ONE}) for part in PARTS],
        *[clash(f"{part} on Android", {**heading, f"h_{part}": ONE}) for part in PARTS],
        *[clash(f"{part} in Swift", {**light, f"h_{part}": ONE}) for part in PARTS],
        *[shows(f"no names that clash: {kind}", tokens(group(spelled_alike(kind, WRITTEN[kind])))) for kind in NEITHER],
        shows("no names of what is left out", tokens(group(unused))),
    ]


# The most values that the value of a token may have in it, itself among them.
MOST_PARTS = 1_024


def long_lists():
    """The longest lists that a value may have, of texts and of lengths."""
    families = ",".join(['"Inter"'] * (MOST_PARTS - 2) + ['"serif"'])
    lengths = ",".join([spelled("@1px")] * (MOST_PARTS // 3 - 2) + [spelled("@2rem")])
    return [
        shows("a long list of families", of("fontFamily", f"[{families}]")),
        shows("a long list of lengths", of("strokeStyle", '{"dashArray":[%s],"lineCap":"round"}' % lengths)),
    ]


CASES = [
    *[shows(f"values: {kind}", sound(kind)) for kind in VALUES],
    *settled(),
    *clashes(),
    *long_lists(),
    *[breaks(kind, number, row) for kind in BROKEN for number, row in enumerate(rows(BROKEN, kind))],
]
