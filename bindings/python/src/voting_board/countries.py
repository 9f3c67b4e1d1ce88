"""The codes of countries by what is left of their names. Made by tools/made."""
CODES = """\
ABW:aruba
AFG:afghanistan;afghanistan islamic
AGO:angola
AIA:anguilla
ALA:aland islands
ALB:albania
AND:andorra;andorra principality
ARE:arab emirates united
ARG:argentina;argentine
ARM:armenia
ASM:american samoa
ATA:antarctica
ATF:french southern territories
ATG:antigua barbuda
AUS:australia
AUT:austria
AZE:azerbaijan
BDI:burundi
BEL:belgium
BEN:benin
BES:bonaire eustatius saba sint
BFA:burkina faso
BGD:bangladesh;bangladesh peoples
BGR:bulgaria
BHR:bahrain
BHS:bahamas;bahamas commonwealth
BIH:bosnia herzegovina
BLM:barthelemy saint
BLR:belarus
BLZ:belize
BMU:bermuda
BOL:bolivia;bolivia plurinational state
BRA:brasil;brazil;brazil federative
BRB:barbados
BRN:brunei;brunei darussalam
BTN:bhutan
BVT:bouvet island
BWA:botswana
CAF:african central
CAN:canada
CCK:cocos islands keeling
CHE:confederation swiss;switzerland
CHL:chile
CHN:china;china mainland pr;china peoples;china pr
CIV:coast ivory;cote divoire
CMR:cameroon
COD:congo democratic;congo dr;drc;zaire
COG:brazzaville congo;congo
COK:cook islands
COL:colombia
COM:comoros;comoros union
CPV:cabo verde;cape verde
CRI:costa rica
CUB:cuba
CUW:curacao
CXR:christmas island
CYM:cayman islands
CYP:cyprus
CZE:czech;czechia
DEU:federal germany;germany
DJI:djibouti
DMA:commonwealth dominica;dominica
DNK:denmark
DOM:dominican
DZA:algeria;algeria democratic peoples
ECU:ecuador
EGY:arab egypt;egypt
ERI:eritrea;eritrea state
ESH:sahara western
ESP:spain
EST:estonia
ETH:democratic ethiopia federal;ethiopia
FIN:finland
FJI:fiji
FLK:falkland islands malvinas
FRA:france;french
FRO:faroe islands
FSM:federated micronesia states;micronesia
GAB:gabon;gabonese
GBR:britain great;britain great ireland northern united;uk;united
GEO:georgia
GGY:guernsey
GHA:ghana
GIB:gibraltar
GIN:guinea
GLP:guadeloupe
GMB:gambia
GNB:bissau guinea
GNQ:equatorial guinea
GRC:greece;hellenic
GRD:grenada
GRL:greenland
GTM:guatemala
GUF:french guiana
GUM:guam
GUY:guyana
HKG:administrative china hong kong region special;china hong kong pr;china hong kong sar;hong kong;hong kong sar
HMD:heard island islands mcdonald
HND:honduras
HRV:croatia
HTI:haiti
HUN:hungary
IDN:indonesia
IMN:isle man
IND:india
IOT:british indian ocean territory
IRL:ireland
IRN:iran;iran islamic
IRQ:iraq
ISL:iceland
ISR:israel;israel state
ITA:italian;italy
JAM:jamaica
JEY:jersey
JOR:hashemite jordan;jordan
JPN:japan
KAZ:kazakhstan
KEN:kenya
KGZ:kyrgyz;kyrgyzstan
KHM:cambodia
KIR:kiribati
KNA:christopher nevis saint;kitts nevis saint
KOR:korea;korea south
KWT:kuwait;kuwait state
LAO:democratic lao peoples;lao pdr;laos
LBN:lebanese;lebanon
LBR:liberia
LBY:libya
LCA:lucia saint
LIE:liechtenstein;liechtenstein principality
LKA:democratic lanka socialist sri;lanka sri
LSO:lesotho
LTU:lithuania
LUX:duchy grand luxembourg;luxembourg
LVA:latvia
MAC:administrative china macao region special;china macao pr;china macao sar;macao;macao sar;macau
MAF:french martin part saint
MAR:morocco
MCO:monaco;monaco principality
MDA:moldova
MDG:madagascar
MDV:maldives
MEX:mexican states united;mexico
MHL:islands marshall
MKD:fyr macedonia;macedonia;macedonia north
MLI:mali
MLT:malta
MMR:burma;myanmar;myanmar union
MNE:montenegro
MNG:mongolia
MNP:commonwealth islands mariana northern;islands mariana northern
MOZ:mozambique
MRT:islamic mauritania;mauritania
MSR:montserrat
MTQ:martinique
MUS:mauritius
MWI:malawi
MYS:malaysia
MYT:mayotte
NAM:namibia
NCL:caledonia new
NER:niger
NFK:island norfolk
NGA:federal nigeria;nigeria
NIC:nicaragua
NIU:niue
NLD:holland;netherlands
NOR:norway
NPL:democratic federal nepal;nepal
NRU:nauru
NZL:new zealand
OMN:oman;oman sultanate
PAK:islamic pakistan;pakistan
PAN:panama
PCN:pitcairn
PER:peru
PHL:philippines
PLW:palau
PNG:guinea independent new papua state;guinea new papua
POL:poland
PRI:puerto rico
PRK:democratic korea peoples;dprk;korea north
PRT:portugal;portuguese
PRY:paraguay
PSE:bank gaza west;palestine;palestine state
PYF:french polynesia
QAT:qatar;qatar state
REU:reunion
ROU:romania
RUS:federation russian;russia
RWA:rwanda;rwandese
SAU:arabia saudi
SDN:sudan
SEN:senegal
SGP:singapore
SGS:georgia islands sandwich south
SHN:ascension cunha da helena saint tristan
SJM:jan mayen svalbard
SLB:islands solomon
SLE:leone sierra
SLV:el salvador
SMR:marino san
SOM:federal somalia;somalia
SPM:miquelon pierre saint
SRB:serbia
SSD:south sudan
STP:democratic principe sao tome;principe sao tome
SUR:suriname
SVK:slovak;slovakia
SVN:slovenia
SWE:sweden
SWZ:eswatini;swaziland
SXM:dutch maarten part sint
SYC:seychelles
SYR:arab syrian;syria
TCA:caicos islands turks
TCD:chad
TGO:togo;togolese
THA:thailand
TJK:tajikistan
TKL:tokelau
TKM:turkmenistan
TLS:democratic leste timor;east timor;leste timor
TON:tonga
TTO:tobago trinidad
TUN:tunisia
TUR:turkey;turkiye
TUV:tuvalu
TWN:china province taiwan;taiwan
TZA:tanzania;tanzania united
UGA:uganda
UKR:ukraine
UMI:islands minor outlying states united
URY:eastern uruguay;uruguay
USA:america states united;states united;us;usa
UZB:uzbekistan
VAT:city holy see state vatican
VCT:grenadines saint vincent;saint vincent
VEN:bolivarian venezuela;bolivariana republica venezuela;rb venezuela;venezuela
VGB:british islands virgin
VIR:islands states united virgin;islands us virgin
VNM:nam socialist viet;nam viet;vietnam
VUT:vanuatu
WLF:futuna wallis
WSM:independent samoa state;samoa
XKX:kosovo
YEM:yemen
ZAF:africa south
ZMB:zambia
ZWE:zimbabwe
"""
