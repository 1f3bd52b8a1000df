<!--#include file="adresse.inc"-->
<!--#include file="utf.inc"-->
