<p>All is well here.</p>
