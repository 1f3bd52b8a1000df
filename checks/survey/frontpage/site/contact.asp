<html><head>
<meta name="ProgId" content="FrontPage.Editor.Document">
<!--METADATA TYPE="typelib" UUID="00000200-0000-0010-8000-00AA006D2EA4" NAME="ADO"-->
</head><body>
<!--webbot BOT="Timestamp" S-Type="EDITED"
    S-Format="%m/%d/%y" -->
<!-- a comment of our own: #include file="x" -->
<%= adCmdText %> <!--#echo var="DATE_LOCAL"-->
</body></html>
