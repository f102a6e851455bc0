.function f0,leaf,0,0,1
nop
.function f1,leaf,0,0,1
nop
.function f2,leaf,0,0,1
nop
.function f3,leaf,0,0,1
nop
.function f4,leaf,0,0,1
nop
.function f5,leaf,0,0,1
nop
.function f6,leaf,0,0,1
nop
.function f7,leaf,0,0,1
nop
.function f8,leaf,0,0,1
nop
.function f9,leaf,0,0,1
nop
.function f10,leaf,0,0,1
nop
.function f11,leaf,0,0,1
nop
.function f12,leaf,0,0,1
nop
.function f13,leaf,0,0,1
nop
.function f14,leaf,0,0,1
nop
.function f15,leaf,0,0,1
nop
.function f16,leaf,0,0,1
nop
.function f17,leaf,0,0,1
nop
.function f18,leaf,0,0,1
nop
.function f19,leaf,0,0,1
nop
.function f20,leaf,0,0,1
nop
.function f21,leaf,0,0,1
nop
.function f22,leaf,0,0,1
nop
.function f23,leaf,0,0,1
nop
.function f24,leaf,0,0,1
nop
.function f25,leaf,0,0,1
nop
.function f26,leaf,0,0,1
nop
.function f27,leaf,0,0,1
nop
.function f28,leaf,0,0,1
nop
.function f29,leaf,0,0,1
nop
.function f30,leaf,0,0,1
nop
.function f31,leaf,0,0,1
nop
.function f32,leaf,0,0,1
nop
.function f33,leaf,0,0,1
nop
.function f34,leaf,0,0,1
nop
.function f35,leaf,0,0,1
nop
.function f36,leaf,0,0,1
nop
.function f37,leaf,0,0,1
nop
.function f38,leaf,0,0,1
nop
.function f39,leaf,0,0,1
nop
.function f40,leaf,0,0,1
nop
.function f41,leaf,0,0,1
nop
.function f42,leaf,0,0,1
nop
.function f43,leaf,0,0,1
nop
.function f44,leaf,0,0,1
nop
.function f45,leaf,0,0,1
nop
.function f46,leaf,0,0,1
nop
.function f47,leaf,0,0,1
nop
.function f48,leaf,0,0,1
nop
.function f49,leaf,0,0,1
nop
.function f50,leaf,0,0,1
nop
.function f51,leaf,0,0,1
nop
.function f52,leaf,0,0,1
nop
.function f53,leaf,0,0,1
nop
.function f54,leaf,0,0,1
nop
.function f55,leaf,0,0,1
nop
.function f56,leaf,0,0,1
nop
.function f57,leaf,0,0,1
nop
.function f58,leaf,0,0,1
nop
.function f59,leaf,0,0,1
nop
.function f60,leaf,0,0,1
nop
.function f61,leaf,0,0,1
nop
.function f62,leaf,0,0,1
nop
.function f63,leaf,0,0,1
nop
.function f64,leaf,0,0,1
nop
.function f65,leaf,0,0,1
nop
.function f66,leaf,0,0,1
nop
.function f67,leaf,0,0,1
nop
.function f68,leaf,0,0,1
nop
.function f69,leaf,0,0,1
nop
.function f70,leaf,0,0,1
nop
.function f71,leaf,0,0,1
nop
.function f72,leaf,0,0,1
nop
.function f73,leaf,0,0,1
nop
.function f74,leaf,0,0,1
nop
.function f75,leaf,0,0,1
nop
.function f76,leaf,0,0,1
nop
.function f77,leaf,0,0,1
nop
.function f78,leaf,0,0,1
nop
.function f79,leaf,0,0,1
nop
.function f80,leaf,0,0,1
nop
.function f81,leaf,0,0,1
nop
.function f82,leaf,0,0,1
nop
.function f83,leaf,0,0,1
nop
.function f84,leaf,0,0,1
nop
.function f85,leaf,0,0,1
nop
.function f86,leaf,0,0,1
nop
.function f87,leaf,0,0,1
nop
.function f88,leaf,0,0,1
nop
.function f89,leaf,0,0,1
nop
.function f90,leaf,0,0,1
nop
.function f91,leaf,0,0,1
nop
.function f92,leaf,0,0,1
nop
.function f93,leaf,0,0,1
nop
.function f94,leaf,0,0,1
nop
.function f95,leaf,0,0,1
nop
.function f96,leaf,0,0,1
nop
.function f97,leaf,0,0,1
nop
.function f98,leaf,0,0,1
nop
.function f99,leaf,0,0,1
nop
.function f100,leaf,0,0,1
nop
.function f101,leaf,0,0,1
nop
.function f102,leaf,0,0,1
nop
.function f103,leaf,0,0,1
nop
.function f104,leaf,0,0,1
nop
.function f105,leaf,0,0,1
nop
.function f106,leaf,0,0,1
nop
.function f107,leaf,0,0,1
nop
.function f108,leaf,0,0,1
nop
.function f109,leaf,0,0,1
nop
.function f110,leaf,0,0,1
nop
.function f111,leaf,0,0,1
nop
.function f112,leaf,0,0,1
nop
.function f113,leaf,0,0,1
nop
.function f114,leaf,0,0,1
nop
.function f115,leaf,0,0,1
nop
.function f116,leaf,0,0,1
nop
.function f117,leaf,0,0,1
nop
.function f118,leaf,0,0,1
nop
.function f119,leaf,0,0,1
nop
.function f120,leaf,0,0,1
nop
.function f121,leaf,0,0,1
nop
.function f122,leaf,0,0,1
nop
.function f123,leaf,0,0,1
nop
.function f124,leaf,0,0,1
nop
.function f125,leaf,0,0,1
nop
.function f126,leaf,0,0,1
nop
.function f127,leaf,0,0,1
nop
.function f128,leaf,0,0,1
nop
.function f129,leaf,0,0,1
nop
.function f130,leaf,0,0,1
nop
.function f131,leaf,0,0,1
nop
.function f132,leaf,0,0,1
nop
.function f133,leaf,0,0,1
nop
.function f134,leaf,0,0,1
nop
.function f135,leaf,0,0,1
nop
.function f136,leaf,0,0,1
nop
.function f137,leaf,0,0,1
nop
.function f138,leaf,0,0,1
nop
.function f139,leaf,0,0,1
nop
.function f140,leaf,0,0,1
nop
.function f141,leaf,0,0,1
nop
.function f142,leaf,0,0,1
nop
.function f143,leaf,0,0,1
nop
.function f144,leaf,0,0,1
nop
.function f145,leaf,0,0,1
nop
.function f146,leaf,0,0,1
nop
.function f147,leaf,0,0,1
nop
.function f148,leaf,0,0,1
nop
.function f149,leaf,0,0,1
nop
.function f150,leaf,0,0,1
nop
.function f151,leaf,0,0,1
nop
.function f152,leaf,0,0,1
nop
.function f153,leaf,0,0,1
nop
.function f154,leaf,0,0,1
nop
.function f155,leaf,0,0,1
nop
.function f156,leaf,0,0,1
nop
.function f157,leaf,0,0,1
nop
.function f158,leaf,0,0,1
nop
.function f159,leaf,0,0,1
nop
.function f160,leaf,0,0,1
nop
.function f161,leaf,0,0,1
nop
.function f162,leaf,0,0,1
nop
.function f163,leaf,0,0,1
nop
.function f164,leaf,0,0,1
nop
.function f165,leaf,0,0,1
nop
.function f166,leaf,0,0,1
nop
.function f167,leaf,0,0,1
nop
.function f168,leaf,0,0,1
nop
.function f169,leaf,0,0,1
nop
.function f170,leaf,0,0,1
nop
.function f171,leaf,0,0,1
nop
.function f172,leaf,0,0,1
nop
.function f173,leaf,0,0,1
nop
.function f174,leaf,0,0,1
nop
.function f175,leaf,0,0,1
nop
.function f176,leaf,0,0,1
nop
.function f177,leaf,0,0,1
nop
.function f178,leaf,0,0,1
nop
.function f179,leaf,0,0,1
nop
.function f180,leaf,0,0,1
nop
.function f181,leaf,0,0,1
nop
.function f182,leaf,0,0,1
nop
.function f183,leaf,0,0,1
nop
.function f184,leaf,0,0,1
nop
.function f185,leaf,0,0,1
nop
.function f186,leaf,0,0,1
nop
.function f187,leaf,0,0,1
nop
.function f188,leaf,0,0,1
nop
.function f189,leaf,0,0,1
nop
.function f190,leaf,0,0,1
nop
.function f191,leaf,0,0,1
nop
.function f192,leaf,0,0,1
nop
.function f193,leaf,0,0,1
nop
.function f194,leaf,0,0,1
nop
.function f195,leaf,0,0,1
nop
.function f196,leaf,0,0,1
nop
.function f197,leaf,0,0,1
nop
.function f198,leaf,0,0,1
nop
.function f199,leaf,0,0,1
nop
.function f200,leaf,0,0,1
nop
.function f201,leaf,0,0,1
nop
.function f202,leaf,0,0,1
nop
.function f203,leaf,0,0,1
nop
.function f204,leaf,0,0,1
nop
.function f205,leaf,0,0,1
nop
.function f206,leaf,0,0,1
nop
.function f207,leaf,0,0,1
nop
.function f208,leaf,0,0,1
nop
.function f209,leaf,0,0,1
nop
.function f210,leaf,0,0,1
nop
.function f211,leaf,0,0,1
nop
.function f212,leaf,0,0,1
nop
.function f213,leaf,0,0,1
nop
.function f214,leaf,0,0,1
nop
.function f215,leaf,0,0,1
nop
.function f216,leaf,0,0,1
nop
.function f217,leaf,0,0,1
nop
.function f218,leaf,0,0,1
nop
.function f219,leaf,0,0,1
nop
.function f220,leaf,0,0,1
nop
.function f221,leaf,0,0,1
nop
.function f222,leaf,0,0,1
nop
.function f223,leaf,0,0,1
nop
.function f224,leaf,0,0,1
nop
.function f225,leaf,0,0,1
nop
.function f226,leaf,0,0,1
nop
.function f227,leaf,0,0,1
nop
.function f228,leaf,0,0,1
nop
.function f229,leaf,0,0,1
nop
.function f230,leaf,0,0,1
nop
.function f231,leaf,0,0,1
nop
.function f232,leaf,0,0,1
nop
.function f233,leaf,0,0,1
nop
.function f234,leaf,0,0,1
nop
.function f235,leaf,0,0,1
nop
.function f236,leaf,0,0,1
nop
.function f237,leaf,0,0,1
nop
.function f238,leaf,0,0,1
nop
.function f239,leaf,0,0,1
nop
.function f240,leaf,0,0,1
nop
.function f241,leaf,0,0,1
nop
.function f242,leaf,0,0,1
nop
.function f243,leaf,0,0,1
nop
.function f244,leaf,0,0,1
nop
.function f245,leaf,0,0,1
nop
.function f246,leaf,0,0,1
nop
.function f247,leaf,0,0,1
nop
.function f248,leaf,0,0,1
nop
.function f249,leaf,0,0,1
nop
.function f250,leaf,0,0,1
nop
.function f251,leaf,0,0,1
nop
.function f252,leaf,0,0,1
nop
.function f253,leaf,0,0,1
nop
.function f254,leaf,0,0,1
nop
.function f255,leaf,0,0,1
nop
.function f256,leaf,0,0,1
nop
